//! Whole programs on scripts from a file.

use super::measure::{Item, Run};
use crate::generate::lines::{memory_script, script};
use crate::harness::random::Random;
use std::fs::{remove_file, write, File};
use std::path::{Path, PathBuf};
use std::process::{Command, Stdio};
use std::rc::Rc;

const LINES: usize = 1_000_000;

/// The three programs.
pub struct Programs<'a> {
    pub proved: &'a Path,
    pub yardstick: &'a Path,
    pub filter: &'a Path,
}

/// A file that is gone when nobody needs it any more.
struct Script(PathBuf);

impl Drop for Script {
    fn drop(&mut self) {
        // Nothing is to be done if it is gone already.
        let _ = remove_file(&self.0);
    }
}

pub fn items(programs: &Programs) -> Result<Vec<Item>, String> {
    let mut random = Random::new(1);
    let mixed = script(&mut random, LINES);
    let memory = memory_script(&mut random, LINES);
    Ok(vec![
        item("line of a mixed script", "mixed", &mixed, programs)?,
        item("mem line", "mem", &memory, programs)?,
    ])
}

fn item(name: &str, file: &str, script: &[u8], programs: &Programs) -> Result<Item, String> {
    let this = std::env::current_exe().map_err(|error| error.to_string())?;
    let path = this.with_file_name(format!("bench-{file}-{}.txt", std::process::id()));
    write(&path, script).map_err(|error| format!("{}: {error}", path.display()))?;
    let script = Rc::new(Script(path));
    let run = |program: &Path| -> Run {
        let (program, script) = (program.to_path_buf(), Rc::clone(&script));
        Box::new(move || child(&program, &script.0))
    };
    Ok(Item {
        name: name.to_string(),
        count: LINES,
        proved: run(programs.proved),
        yardstick: run(programs.yardstick),
        second: run(programs.filter),
    })
}

/// One run of a program on a file; what it prints is thrown away.
fn child(program: &Path, script: &Path) -> Result<(), String> {
    let trouble = |error: std::io::Error| format!("{}: {error}", program.display());
    let status = Command::new(program)
        .stdin(File::open(script).map_err(trouble)?)
        .stdout(Stdio::null())
        .status()
        .map_err(trouble)?;
    if status.success() {
        Ok(())
    } else {
        Err(format!("{}: {status}", program.display()))
    }
}
