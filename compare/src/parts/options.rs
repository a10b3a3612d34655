//! The options of a comparison.

use crate::mutants::{all, Mutant};
use std::path::PathBuf;

pub const HELP: &str = "\
Compares the proved library and program with the second program.

    compare [options] --program PATH --releases PATH

  --program PATH  the program that reads lines, run as a child process
  --releases PATH the program that compares two scripts, run likewise
  --seed N        where the random numbers start (default 1)
  --events N      events on the C interface (default 40000000)
  --lines N       lines through the program (default 3000000)
  --mutant NAME   make the second program wrong in one way, so that the
                  comparison must fail; without it all ways are tried
  --mutant list   name the ways and what is wrong in each
  --root PATH     the repository (default: the one this was built in)
  --help          this

Each part says what it ran; the last line is 'N passed, 0 failed'. What differs
is made small and printed, and the exit status is 1. Equal options give an equal
run.
";

pub struct Options {
    pub program: PathBuf,
    pub releases: PathBuf,
    pub seed: u64,
    pub events: u64,
    pub lines: u64,
    pub mutant: Option<Mutant>,
    pub root: PathBuf,
}

/// What to do.
pub enum Wish {
    Compare(Options),
    /// Print this and be done.
    Print(String),
}

fn number(text: &str) -> Result<u64, String> {
    text.parse().map_err(|_| format!("not a number: {text}"))
}

fn mutant(name: &str) -> Result<Mutant, String> {
    let mut mutants = all().into_iter();
    let found = mutants.find(|mutant| mutant.name == name);
    found.ok_or_else(|| format!("no mutant {name}; see --mutant list"))
}

fn list() -> String {
    let line = |mutant: Mutant| format!("{:<18}{}\n", mutant.name, mutant.wrong);
    all().into_iter().map(line).collect()
}

/// Reads the options after the program's own name.
pub fn read(arguments: impl Iterator<Item = String>) -> Result<Wish, String> {
    let mut options = Options {
        program: PathBuf::new(),
        releases: PathBuf::new(),
        seed: 1,
        events: 40_000_000,
        lines: 3_000_000,
        mutant: None,
        root: PathBuf::from(concat!(env!("CARGO_MANIFEST_DIR"), "/..")),
    };
    let mut arguments = arguments;
    while let Some(option) = arguments.next() {
        if option == "--help" {
            return Ok(Wish::Print(HELP.to_string()));
        }
        let Some(value) = arguments.next() else {
            return Err(format!("{option}: unknown, or without its value"));
        };
        match option.as_str() {
            "--program" => options.program = PathBuf::from(value),
            "--releases" => options.releases = PathBuf::from(value),
            "--seed" => options.seed = number(&value)?,
            "--events" => options.events = number(&value)?,
            "--lines" => options.lines = number(&value)?,
            "--mutant" if value == "list" => return Ok(Wish::Print(list())),
            "--mutant" => options.mutant = Some(mutant(&value)?),
            "--root" => options.root = PathBuf::from(value),
            _ => return Err(format!("unknown option {option}")),
        }
    }
    if options.program.as_os_str().is_empty() || options.releases.as_os_str().is_empty() {
        return Err("--program or --releases is missing".to_string());
    }
    Ok(Wish::Compare(options))
}
