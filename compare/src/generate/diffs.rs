//! Pairs of maps, right and wrong, for what differs between them.

use super::aim::guard_number;
use crate::harness::call::Call;
use crate::harness::random::Random;
use crate::model::diff::{DIFF_ROOM, MAP_MOST};
use crate::model::{Shape, SHAPES};
use std::collections::BTreeSet;

/// The difference of these maps, into enough room.
pub fn diff_of(random: &mut Random, guard: u32, before: &[u64], after: &[u64]) -> Call {
    let spare = random.pick(&[0, 0, 1, 4, 5, 40]);
    Call::Diff {
        guard,
        before: before.to_vec(),
        after: after.to_vec(),
        lent: random.numbers(DIFF_ROOM + spare),
    }
}

/// Made-up maps of one guard; every other pair with something wrong about it.
pub fn any_diff(random: &mut Random) -> Call {
    let shape = &SHAPES[random.below(SHAPES.len())];
    let (mut before, mut after) = pair(random, shape);
    let (mut guard, mut room) = (shape.number, DIFF_ROOM + random.pick(&[0, 0, 1, 4, 5, 40]));
    let damages = random.pick(&[0, 0, 1, 2]);
    for _ in 0..damages {
        match random.below(8) {
            0 => guard = guard_number(random),
            1 => room = random.pick(&[0, 1, 5, 660, 664, 664, 664]),
            2..5 => damage(random, &mut before, shape.window),
            _ => damage(random, &mut after, shape.window),
        }
    }
    Call::Diff {
        guard,
        before,
        after,
        lent: random.numbers(room),
    }
}

/// Two maps of a guard: the same, alike or not, of the same words or not.
pub fn pair(random: &mut Random, shape: &Shape) -> (Vec<u64>, Vec<u64>) {
    if random.one_in(16) {
        // As many rows of a difference as there can be, or nearly.
        let words = random.numbers(1_000);
        let mut full = || map_of_rows(random, shape.window, MAP_MOST / 3, 1, &words);
        return (full(), full());
    }
    let words = random.pick(&[1, 2, 3, 40]);
    let words = palette(random, words);
    let before = map(random, shape.window, &words);
    let after = match random.below(4) {
        0 => repainted(random, &before, &words),
        _ => map(random, shape.window, &words),
    };
    (before, after)
}

/// Rights words that a guard may give, and such as none can.
fn palette(random: &mut Random, count: usize) -> Vec<u64> {
    let word = |random: &mut Random| match random.below(6) {
        0 => random.pick(&[0x8282_0000_0000_0000, 0xFFFF_0000_0000_0000]),
        1 => 0,
        2 => u64::MAX,
        3 => 1 << random.below(64),
        _ => random.number(),
    };
    (0..count).map(|_| word(random)).collect()
}

/// Rows that cover the window, up to 67, neighbours of equal rights too.
fn map(random: &mut Random, window: u64, words: &[u64]) -> Vec<u64> {
    let rows = random.pick(&[1, 2, 3, 5, 20, 67]);
    // Coarse steps let boundaries of two maps coincide.
    let step = random.pick(&[1, 0x10, window / 128, window / 128]);
    map_of_rows(random, window, rows, step, words)
}

/// The same with that many rows and boundaries at multiples of a step.
fn map_of_rows(
    random: &mut Random,
    window: u64,
    rows: usize,
    step: u64,
    words: &[u64],
) -> Vec<u64> {
    let mut starts = BTreeSet::from([0]);
    while starts.len() < rows {
        starts.insert(random.number() % (window / step) * step);
    }
    let ends = starts.iter().skip(1).copied().chain([window]);
    let rows = starts.iter().zip(ends);
    rows.flat_map(|(&start, next)| [start, next - 1, random.pick(words)])
        .collect()
}

/// The same rows with some of their rights changed.
fn repainted(random: &mut Random, map: &[u64], words: &[u64]) -> Vec<u64> {
    let mut map = map.to_vec();
    for row in map.chunks_exact_mut(3) {
        match random.below(6) {
            0 => row[2] = random.pick(words),
            1 => row[2] ^= 1 << random.below(64),
            _ => {}
        }
    }
    map
}

/// Makes a map wrong, mostly.
fn damage(random: &mut Random, map: &mut Vec<u64>, window: u64) {
    let rows = map.len() / 3;
    let at = 3 * random.below(rows.max(1));
    let bound = at + random.below(2);
    let few = 1 + random.below(3);
    match random.below(14) {
        0 => map.clear(),
        1 => map.truncate(map.len().saturating_sub(few)),
        2 => map.extend(random.numbers(few)),
        3 => *map = map_of_rows(random, window, MAP_MOST / 3 + 1, 1, &[1, 2, 3]),
        4 => *map = map_of_rows(random, window, MAP_MOST / 3 + 2, 1, &[1, 2, 3]),
        5 => drop(map.splice(0..0, [0, u64::MAX, random.number()])),
        _ if rows == 0 => {}
        6 => drop(map.drain(at..at + 3)),
        7 => map.extend_from_within(at..at + 3),
        // A row that ends just before it starts.
        8 => drop(map.splice(at..at, [map[at], map[at].wrapping_sub(1), 5])),
        9 => map[bound] = random.pick(&[0, window, 1 << 32, u64::MAX, 1 << 63]),
        10 => map[bound] ^= 1 << random.below(64),
        11 => map[bound] = map[bound].wrapping_add(1),
        12 => map[bound] = map[bound].wrapping_sub(1),
        // The last end.
        _ => map[3 * rows - 2] = window - 2,
    }
}
