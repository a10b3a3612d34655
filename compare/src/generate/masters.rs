//! Master accesses, aimed at what a state lets the masters carry.

use super::aim::memory_access;
use crate::harness::random::Random;
use crate::model::{MasterAccess, MemoryAccess, GUARDING, MASTERS};

/// Where a state has SECCFGR0 and ATTR0.
const SECCFGR: usize = 1;
const ATTR: usize = 20;
const MSEC: u32 = 0x100;

/// What a master carries, in the form of its ATTR.
fn carried(words: &[u32], master: usize) -> u32 {
    let attr = words[ATTR + master] & 0x370;
    let sec = |p: u32| words[SECCFGR + p as usize / 32] >> (p % 32) & 1 == 1;
    match GUARDING[master] {
        Some(peripheral) if !sec(peripheral) => attr & !MSEC,
        _ => attr,
    }
}

/// The first master after some one that carries the access's own attributes.
fn master_like(random: &mut Random, words: &[u32], access: &MemoryAccess) -> u32 {
    let (sec, privileged) = (u32::from(access.secure), u32::from(access.privileged));
    let wanted = access.cid << 4 | sec << 8 | privileged << 9;
    let first = random.below(MASTERS);
    let mut masters = (first..first + MASTERS).map(|master| master % MASTERS);
    let like = masters.find(|&master| carried(words, master) == wanted);
    like.unwrap_or(first) as u32
}

pub fn master_access(random: &mut Random, words: &[u32]) -> MasterAccess {
    let access = memory_access(random, words);
    MasterAccess {
        master: match random.below(40) {
            0 => random.pick(&[13, 14, 15, 16, 255, 256, u32::MAX]),
            _ => master_like(random, words, &access),
        },
        guard: access.guard,
        offset: access.offset,
        width: access.width,
        direction: access.direction,
    }
}
