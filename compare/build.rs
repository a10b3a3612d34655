//! Where the proved library is, for what links it, and the yardstick built.

use std::env;
use std::path::{Path, PathBuf};
use std::process::Command;

fn main() {
    println!("cargo:rerun-if-env-changed=SUTHRAIN_LIB_DIR");
    println!("cargo:rerun-if-changed=build.rs");
    if env::var_os("CARGO_FEATURE_PROVED").is_none() {
        return;
    }
    proved();
    yardstick();
}

fn proved() {
    let directory = match env::var_os("SUTHRAIN_LIB_DIR") {
        Some(directory) => PathBuf::from(directory),
        None => PathBuf::from("../crates/capi/out"),
    };
    let archive = directory.join("libcapi.a");
    println!("cargo:rerun-if-changed={}", archive.display());
    let directory = match directory.canonicalize() {
        Ok(directory) if archive.exists() => directory,
        _ => panic!(
            "no {}: build it by `rt lib` in crates/capi, or name its directory in SUTHRAIN_LIB_DIR",
            archive.display()
        ),
    };
    println!("cargo:rustc-link-search=native={}", directory.display());
    println!(
        "cargo:rustc-env=SUTHRAIN_LINKED_FROM={}",
        directory.display()
    );
}

/// The library and the text program in plain C, by gcc.
fn yardstick() {
    println!("cargo:rerun-if-changed=yardstick");
    println!("cargo:rerun-if-changed=../include/suthrain.h");
    let out = PathBuf::from(env::var_os("OUT_DIR").expect("cargo names it"));
    let (object, program) = (out.join("yardstick.o"), out.join("yardstick"));
    gcc(&["-c", "yardstick/library.c"], &object);
    gcc(&["yardstick/program.c"], &program);
    let mut ar = Command::new("ar");
    ar.arg("rcs").arg(out.join("libyardstick.a")).arg(&object);
    succeeds(&mut ar);
    println!("cargo:rustc-link-search=native={}", out.display());
    println!("cargo:rustc-env=YARDSTICK_PROGRAM={}", program.display());
}

fn gcc(arguments: &[&str], output: &Path) {
    let mut gcc = Command::new("gcc");
    gcc.args(["-std=gnu11", "-O3", "-Wall", "-Wextra", "-Werror"])
        .args(arguments)
        .arg("-o")
        .arg(output);
    succeeds(&mut gcc);
}

fn succeeds(command: &mut Command) {
    match command.status() {
        Ok(status) if status.success() => {}
        other => panic!("{command:?}: {other:?}"),
    }
}
