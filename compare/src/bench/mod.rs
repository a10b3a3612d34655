//! How fast the proved library and program are, next to plain C and the second program.

mod accesses;
pub mod count;
mod events;
mod growth;
mod lines;
mod maps;
mod measure;
mod rows;

use crate::linked::YARDSTICK_PROGRAM;
use lines::Programs;
use measure::{row, HEAD};
use std::path::Path;

/// How many accesses are in a batch.
const BATCH: usize = 1_000_000;

/// Measures everything and prints a table in Markdown. Without a program the
/// lines are left out.
pub fn run(rounds: usize, program: Option<&Path>, filter: &Path) -> Result<(), String> {
    print!("{HEAD}");
    for item in &mut rows::items(BATCH) {
        print!("{}", row(rounds, item)?);
    }
    if let Some(proved) = program {
        let programs = Programs {
            proved,
            yardstick: Path::new(YARDSTICK_PROGRAM),
            filter,
        };
        for item in &mut lines::items(&programs)? {
            print!("{}", row(rounds, item)?);
        }
    }
    Ok(())
}
