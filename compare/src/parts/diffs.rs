//! What differs between two maps.

use super::Verdict;
use crate::generate::diffs::{any_diff, diff_of};
use crate::generate::lent::map_of;
use crate::generate::states::dense_state;
use crate::harness::case::Case;
use crate::harness::duel::Duel;
use crate::harness::random::Random;
use crate::model::SHAPES;

/// Maps as made of two states, and made-up ones.
pub fn diffs(duel: &mut Duel, random: &mut Random, amount: u64) -> Verdict {
    const EACH: u64 = 20;
    let rounds = amount.div_ceil(EACH);
    let (mut rows, mut most) = (0, 0);
    for _ in 0..rounds {
        let guard = SHAPES[random.below(SHAPES.len())].number;
        let before = made(duel, random, guard)?;
        let after = made(duel, random, guard)?;
        for place in 0..EACH {
            let call = match place {
                0 => diff_of(random, guard, &before, &after),
                _ => any_diff(random),
            };
            let used = duel.step(call)?.used;
            rows += used / 5;
            most = most.max(used / 5);
        }
    }
    let diffs = rounds * EACH;
    Ok(format!("{diffs} diffs of {rows} rows, {most} at most"))
}

/// The numbers of a guard's map in some state.
fn made(duel: &mut Duel, random: &mut Random, guard: u32) -> Result<Vec<u64>, Case> {
    duel.load(dense_state(random));
    let mut outcome = duel.step(map_of(random, guard))?;
    outcome.lent.truncate(outcome.used as usize);
    Ok(outcome.lent)
}
