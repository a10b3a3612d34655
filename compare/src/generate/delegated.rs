//! Writes to subregions, aimed at those whose configuration is delegated.

use super::aim::{guard_number, place_of};
use super::registers::{data, region_offset};
use crate::harness::random::Random;
use crate::harness::words::region_at;
use crate::model::{Block, Direction, Event, RegisterAccess, SHAPES};

const DCEN: u32 = 1 << 2;

/// A write to CFGR, START or END of a guard's subregion, a delegated one if
/// there is any, mostly by somebody who is privileged.
pub fn delegated_write(random: &mut Random, words: &[u32]) -> Event {
    let guard = guard_number(random);
    let place = place_of(guard);
    // A and B of each region in turn, from some one on.
    let subregions = 2 * SHAPES[place].regions;
    let first = random.below(subregions);
    let mut all = (first..subregions).chain(0..first);
    let nest = |at: usize| words[region_at(place, at / 2) + 7 + 4 * (at % 2)];
    let at = all.find(|&at| nest(at) & DCEN != 0).unwrap_or(first);
    let subregion = region_offset(at / 2) + 0x10 + 0x10 * (at % 2) as u32;
    Event::Register(RegisterAccess {
        block: Block::Risaf(guard),
        offset: subregion + 4 * random.below(3) as u32,
        direction: Direction::Write,
        data: data(random),
        secure: random.one_in(3),
        privileged: !random.one_in(8),
    })
}
