//! Calls with lent memory: maps, lookups, batches.

use super::aim::{block, guard_number, memory_access, peripheral_access};
use super::registers;
use crate::harness::call::Call;
use crate::harness::random::Random;

/// The least count of numbers for a map.
const MAP_NUMBERS: usize = 201;

/// The map of any guard.
pub fn map(random: &mut Random) -> Call {
    let guard = guard_number(random);
    map_of(random, guard)
}

/// Into at least as many numbers as a map needs.
pub fn map_of(random: &mut Random, guard: u32) -> Call {
    let spare = random.pick(&[0, 0, 1, 2, 20]);
    Call::Map {
        guard,
        lent: random.numbers(MAP_NUMBERS + spare),
    }
}

/// Into too few numbers.
pub fn short_map(random: &mut Random) -> Call {
    let count = match random.below(4) {
        0 => 0,
        1 => MAP_NUMBERS - 1,
        _ => random.below(MAP_NUMBERS),
    };
    Call::Map {
        guard: guard_number(random),
        lent: random.numbers(count),
    }
}

/// Near the number at some place, or anything.
fn sought(random: &mut Random, numbers: &[u64]) -> u64 {
    if numbers.is_empty() || random.one_in(8) {
        return random.pick(&[0, 1, u64::from(u32::MAX), 1 << 32, u64::MAX]);
    }
    if random.one_in(8) {
        return random.number() >> random.below(64);
    }
    random
        .pick(numbers)
        .wrapping_add(random.below(3) as u64)
        .wrapping_sub(1)
}

/// In numbers as they are, or in a part of them.
pub fn lookup(random: &mut Random, numbers: &[u64]) -> Call {
    let numbers = if random.one_in(4) {
        let end = random.below(numbers.len() + 1);
        numbers[..end].to_vec()
    } else {
        numbers.to_vec()
    };
    Call::Lookup {
        offset: sought(random, &numbers),
        numbers,
    }
}

/// Numbers that are no map: few or many, small so that rows enclose a lot, or
/// large, in order or not.
pub fn any_numbers(random: &mut Random) -> Vec<u64> {
    let count = match random.below(4) {
        0 => random.below(6),
        1 => random.below(210),
        _ => random.below(31),
    };
    let shift = random.pick(&[0, 32, 56, 60]);
    let mut numbers: Vec<u64> = (0..count).map(|_| random.number() >> shift).collect();
    if random.one_in(4) {
        numbers.sort_unstable();
    }
    numbers
}

/// A batch with answer places to spare, or with none, and its count.
pub fn batch(random: &mut Random, words: &[u32]) -> (Call, u64) {
    let count = match random.below(8) {
        0 => random.below(3),
        1 => random.below(300),
        _ => random.below(60),
    };
    let spare = random.pick(&[0, 0, 1, 7]);
    let call = batch_of(random, words, count, count + spare);
    (call, count as u64)
}

/// A batch with too few answer places.
pub fn short_batch(random: &mut Random, words: &[u32]) -> Call {
    let count = 1 + random.below(40);
    let some = random.below(count);
    let places = random.pick(&[0, count - 1, some]);
    batch_of(random, words, count, places)
}

fn batch_of(random: &mut Random, words: &[u32], count: usize, places: usize) -> Call {
    Call::Batch {
        accesses: (0..count).map(|_| memory_access(random, words)).collect(),
        lent: random.numbers(places),
    }
}

/// Block and operation numbers that the events proper cannot have.
pub fn no_such(random: &mut Random) -> Call {
    let number = random.pick(&[3, 4, 255, 256, 258, 1 << 31, u32::MAX]);
    if random.flag() {
        let block = block(random);
        Call::NoBlock {
            block: number,
            access: registers::access(random, block),
        }
    } else {
        Call::NoOperation {
            operation: number,
            access: peripheral_access(random),
        }
    }
}
