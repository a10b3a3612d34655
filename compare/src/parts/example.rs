//! The C example, built against the library and run.

use std::path::Path;
use std::process::{Command, Output};

fn succeeds(command: &mut Command) -> Result<(), String> {
    let Output {
        status,
        stdout,
        stderr,
    } = command
        .output()
        .map_err(|error| format!("{command:?}: {error}\n"))?;
    if status.success() {
        return Ok(());
    }
    let printed = [stdout, stderr].concat();
    let printed = String::from_utf8_lossy(&printed);
    Err(format!("{command:?}: {status}\n{printed}"))
}

/// Builds `examples/embed.c` under the repository's root and runs it.
pub fn example(root: &Path, library: &Path) -> Result<String, String> {
    let this = std::env::current_exe().map_err(|error| format!("{error}\n"))?;
    let built = this.with_file_name(format!("embed-{}", std::process::id()));
    let mut gcc = Command::new("gcc");
    gcc.args(["-std=c11", "-O2", "-Wall", "-Wextra", "-Werror", "-I"])
        .arg(root.join("include"))
        .arg(root.join("examples/embed.c"))
        .arg(library.join("libcapi.a"))
        .arg("-o")
        .arg(&built);
    let outcome = succeeds(&mut gcc).and_then(|()| succeeds(&mut Command::new(&built)));
    // It may not have been built.
    let _ = std::fs::remove_file(&built);
    outcome.map(|()| String::new())
}
