//! Runs for a program that counts instructions.

use super::measure::{Item, Run};
use super::{growth, rows};

/// How many accesses are in a batch that is counted.
const BATCH: usize = 1_000;

/// What the library's functions do from the begin to the end of this call is counted, each call for itself: `instructions.sh` knows it
/// by its name.
#[no_mangle]
#[inline(never)]
pub extern "C" fn counted(run: &mut Run, runs: usize) -> bool {
    (0..runs).all(|_| run().is_ok())
}

/// Each item of a table on both libraries: once so that all is in place, then once and twice to be counted. Prints for each how often
/// one run does it, and its name.
pub fn run(table: &str) -> Result<(), String> {
    let items = match table {
        "calls" => rows::items(BATCH),
        "regions" => growth::items(),
        _ => return Err(format!("no table {table}\n")),
    };
    for mut item in items {
        println!("{}\t{}", item.count, item.name);
        let Item {
            proved, yardstick, ..
        } = &mut item;
        for side in [proved, yardstick] {
            side()?;
            for runs in [1, 2] {
                counted(side, runs);
            }
        }
    }
    Ok(())
}
