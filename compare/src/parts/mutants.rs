//! Whether the comparison finds what is deliberately wrong.

use super::lines::{damaged_script, Filter, Sides};
use super::PARTS;
use crate::harness::duel::Duel;
use crate::harness::machine::Machine;
use crate::harness::modelled::{Modelled, Rules};
use crate::harness::program::Program;
use crate::harness::random::Random;
use crate::harness::tally::Tally;
use crate::mutants::{all, Change};

/// How many rounds of how many events, or of how many scripts, a search has.
const ROUNDS: usize = 40;
const EVENTS: u64 = 5_000;
const SCRIPTS: usize = 200;

/// Every mutant must be found.
pub fn mutants(
    seed: u64,
    subject: &mut dyn Machine,
    program: Option<&Program>,
) -> Result<String, String> {
    let (mut found, mut missed) = (0, String::new());
    for mutant in all() {
        let shown = match (mutant.change, program) {
            (Change::Rules(rules), _) => rules_differ(seed, rules, subject),
            (Change::Lines(filter), Some(program)) => lines_differ(seed, filter, program),
            (Change::Lines(_), None) => continue,
        };
        if shown {
            found += 1;
        } else {
            missed += &format!("not found: {} ({})\n", mutant.name, mutant.wrong);
        }
    }
    if missed.is_empty() {
        Ok(format!("{found} wrong models, each found"))
    } else {
        Err(missed)
    }
}

/// Whether some part of the comparison shows a difference.
fn rules_differ(seed: u64, rules: Rules, subject: &mut dyn Machine) -> bool {
    let (mut expected, mut tally) = (Modelled::new(rules), Tally::default());
    let mut duel = Duel::new(&mut expected, subject, &mut tally);
    let mut random = Random::named(seed, "mutants");
    let mut shows = |round: usize| {
        let part = &PARTS[round % PARTS.len()];
        (part.run)(&mut duel, &mut random, EVENTS * part.share / 1_000).is_err()
    };
    (0..ROUNDS * PARTS.len()).any(&mut shows)
}

fn lines_differ(seed: u64, filter: Filter, program: &Program) -> bool {
    let mut random = Random::named(seed, "mutants");
    let sides = Sides {
        program,
        filter: &filter,
    };
    (0..SCRIPTS).any(|_| sides.differ(&damaged_script(&mut random, 200)))
}
