//! The parts of a comparison.

pub mod accesses;
pub mod diffs;
#[cfg(feature = "proved")]
pub mod equal;
pub mod example;
pub mod lines;
pub mod memory;
pub mod mutants;
pub mod options;
pub mod releases;
pub mod run;

use crate::harness::case::Case;
use crate::harness::duel::Duel;
use crate::harness::random::Random;

/// What a part of the C interface's comparison says it did, or what differs.
pub type Verdict = Result<String, Case>;

/// A part of the C interface's comparison, run at an amount.
pub struct Part {
    pub name: &'static str,
    /// How many of a thousand events of the whole run are its amount.
    pub share: u64,
    pub run: fn(&mut Duel, &mut Random, u64) -> Verdict,
}

const fn part(
    name: &'static str,
    share: u64,
    run: fn(&mut Duel, &mut Random, u64) -> Verdict,
) -> Part {
    Part { name, share, run }
}

pub const PARTS: [Part; 9] = [
    part("random", 300, accesses::random),
    part("dense", 250, accesses::dense),
    part("reached", 300, accesses::reached),
    part("line", 50, accesses::line),
    part("maps", 10, memory::maps),
    part("lookups", 50, memory::lookups),
    part("batches", 140, memory::batches),
    part("lengths", 10, memory::lengths),
    part("diffs", 10, diffs::diffs),
];
