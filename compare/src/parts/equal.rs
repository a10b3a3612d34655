//! The yardstick against the proved library and program: what is slower or faster has to do the same.

use super::lines::{bad, good, Sides};
use super::run::Report;
use super::{Part, PARTS};
use crate::harness::duel::Duel;
use crate::harness::program::Program;
use crate::harness::random::Random;
use crate::harness::tally::Tally;
use crate::linked::{Linked, PROVED, YARDSTICK, YARDSTICK_PROGRAM};
use std::path::{Path, PathBuf};

/// How much is run.
pub struct Amount {
    pub seed: u64,
    pub calls: u64,
    pub lines: u64,
}

/// Every part of the C interface, and scripts through both programs; whether all is equal.
pub fn run(amount: &Amount, program: &Path) -> bool {
    let Amount { seed, calls, lines } = *amount;
    println!("seed {seed}, {calls} calls, {lines} lines");
    let (mut report, mut tally) = (Report::default(), Tally::default());
    for part in &PARTS {
        report.part(part.name, || interface(part, amount, &mut tally));
    }
    let proved = Program {
        path: program.to_path_buf(),
    };
    let yardstick = Program {
        path: PathBuf::from(YARDSTICK_PROGRAM),
    };
    // A program that cannot be run prints nothing, and differs.
    let expected = |script: &[u8]| proved.run(script, Random::new(0)).unwrap_or_default();
    let sides = Sides {
        program: &yardstick,
        filter: &expected,
    };
    let half = lines.div_ceil(2);
    let mut random = Random::named(seed, "scripts");
    report.part("scripts", || good(&sides, &mut tally, &mut random, half));
    let mut random = Random::named(seed, "damage");
    report.part("damage", || bad(&sides, &mut tally, &mut random, half));
    report.part("answers", || {
        let pairs = tally.verdict()?;
        Ok(format!("{pairs} pairs of a call and its answer, each met"))
    });
    report.end()
}

/// One part of the C interface.
fn interface(part: &Part, amount: &Amount, tally: &mut Tally) -> Result<String, String> {
    let (mut proved, mut yardstick) = (Linked::new(&PROVED), Linked::new(&YARDSTICK));
    let mut duel = Duel::new(&mut proved, &mut yardstick, tally);
    let mut random = Random::named(amount.seed, part.name);
    let share = (amount.calls * part.share).div_ceil(1_000);
    (part.run)(&mut duel, &mut random, share).map_err(|case| {
        let case = case.smallest(&mut proved, &mut yardstick);
        case.report(&mut proved, &mut yardstick)
    })
}
