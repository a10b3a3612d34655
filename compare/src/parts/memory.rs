//! Lent memory: maps, lookups, batches, and memory of the wrong length.

use super::accesses::any_call;
use super::Verdict;
use crate::generate::lent::{
    any_numbers, batch, lookup, map, map_of, no_such, short_batch, short_map,
};
use crate::generate::states::{dense_state, random_state, random_words};
use crate::harness::call::Call;
use crate::harness::duel::Duel;
use crate::harness::random::Random;
use crate::harness::words::{GUARD_WORDS, STATE_WORDS};
use crate::model::{Event, SHAPES};

/// A random state or, more often, a dense one.
fn some_state(random: &mut Random) -> Vec<u32> {
    if random.one_in(4) {
        random_state(random)
    } else {
        dense_state(random)
    }
}

/// The maps of all guards of a state, and one of any number.
pub fn maps(duel: &mut Duel, random: &mut Random, amount: u64) -> Verdict {
    let states = amount.div_ceil(1 + SHAPES.len() as u64);
    let (mut rows, mut most) = (0, 0);
    for _ in 0..states {
        duel.load(some_state(random));
        for shape in &SHAPES {
            let used = duel.step(map_of(random, shape.number))?.used;
            rows += used / 3;
            most = most.max(used / 3);
        }
        duel.step(map(random))?;
    }
    let maps = states * (1 + SHAPES.len() as u64);
    Ok(format!("{maps} maps of {rows} rows, {most} at most"))
}

/// Lookups in maps, with and without what comes after them, and in numbers
/// that are no map.
pub fn lookups(duel: &mut Duel, random: &mut Random, amount: u64) -> Verdict {
    const EACH: u64 = 40;
    let rounds = amount.div_ceil(2 * EACH);
    for _ in 0..rounds {
        duel.load(some_state(random));
        let made = duel.step(map(random))?;
        let map = if random.flag() {
            &made.lent[..made.used as usize]
        } else {
            &made.lent[..]
        };
        for _ in 0..EACH {
            duel.step(lookup(random, map))?;
            let numbers = any_numbers(random);
            duel.step(lookup(random, &numbers))?;
        }
    }
    Ok(format!("{} lookups", 2 * rounds * EACH))
}

/// Batches, several on a state.
pub fn batches(duel: &mut Duel, random: &mut Random, amount: u64) -> Verdict {
    let (mut batches, mut accesses) = (0, 0);
    while accesses < amount {
        duel.load(some_state(random));
        for _ in 0..4 {
            let (call, count) = batch(random, duel.words());
            batches += 1;
            accesses += count;
            duel.step(call)?;
        }
    }
    Ok(format!("{batches} batches, {accesses} accesses"))
}

/// The length without the guards on the AHB bus.
const AXI_ALONE: usize = STATE_WORDS - 4 * GUARD_WORDS;

fn wrong_length(random: &mut Random) -> usize {
    let length = match random.below(4) {
        0 => random.pick(&[0, 1, AXI_ALONE, STATE_WORDS - 1, STATE_WORDS + 1]),
        1 => STATE_WORDS + random.below(200),
        _ => random.below(STATE_WORDS),
    };
    length + usize::from(length == STATE_WORDS)
}

/// State memory, map memory and answer memory of the wrong length.
pub fn lengths(duel: &mut Duel, random: &mut Random, amount: u64) -> Verdict {
    const EACH: u64 = 20;
    // Enough for every kind of call even in a short run.
    let rounds = amount.max(4_000).div_ceil(EACH);
    for _ in 0..rounds {
        let state = random_state(random);
        if random.flag() {
            let length = wrong_length(random);
            duel.load(random_words(random, length));
        } else {
            duel.load(state.clone());
        }
        let right = duel.words().len() == STATE_WORDS;
        for _ in 0..EACH {
            let call = match random.below(12) {
                0 | 1 => short_map(random),
                2 | 3 => short_batch(random, &state),
                4 => no_such(random),
                5 => Call::Line,
                6 if !right => map(random),
                7 if !right => batch(random, &state).0,
                8 if !right => Call::Event(Event::Reset),
                _ => any_call(random, &state),
            };
            duel.step(call)?;
        }
    }
    Ok(format!("{} calls", rounds * EACH))
}
