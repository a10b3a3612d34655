//! The model's state to and from the words of the C interface's state.

use crate::model::{Device, Guard, Region, Subregion, GUARDS, MASTERS, REGIONS_STORED};

/// RIFSC comes first, then IAC, then the guards.
pub const RIFSC_WORDS: usize = 1 + 6 + 6 + 6 + 1 + MASTERS;
/// IAC is IER, ISR, and the line and the count that are held.
pub const IER_AT: usize = RIFSC_WORDS;
pub const ISR_AT: usize = IER_AT + 6;
pub const LINE_AT: usize = ISR_AT + 6;
pub const COUNT_AT: usize = LINE_AT + 1;
pub const FIRST_GUARD: usize = COUNT_AT + 1;
/// A guard is CR, IASR, IAESR, IADDR and its regions.
pub const GUARD_HEAD: usize = 4;
pub const REGION_WORDS: usize = 12;
pub const GUARD_WORDS: usize = GUARD_HEAD + REGIONS_STORED * REGION_WORDS;
pub const STATE_WORDS: usize = FIRST_GUARD + GUARDS * GUARD_WORDS;

/// Where the words of the guard at that place start.
pub fn guard_at(place: usize) -> usize {
    FIRST_GUARD + place * GUARD_WORDS
}

/// Where the words of one of its regions start; regions count from 0.
pub fn region_at(place: usize, region: usize) -> usize {
    guard_at(place) + GUARD_HEAD + region * REGION_WORDS
}

/// The model in that state; there are as many words as a state has.
pub fn device_of(words: &[u32]) -> Device {
    let mut device = Device::reset_state();
    let (rifsc, rest) = words.split_at(RIFSC_WORDS);
    let (iac, guards) = rest.split_at(FIRST_GUARD - RIFSC_WORDS);
    device.rifsc.cr = rifsc[0];
    device.rifsc.seccfgr.copy_from_slice(&rifsc[1..7]);
    device.rifsc.privcfgr.copy_from_slice(&rifsc[7..13]);
    device.rifsc.rcfglockr.copy_from_slice(&rifsc[13..19]);
    device.rifsc.rimc_cr = rifsc[19];
    device.rifsc.attr.copy_from_slice(&rifsc[20..]);
    device.iac.ier.copy_from_slice(&iac[..6]);
    device.iac.isr.copy_from_slice(&iac[6..12]);
    [device.iac.line, device.iac.count] = [iac[12], iac[13]];
    let chunks = guards.chunks_exact(GUARD_WORDS);
    for (guard, words) in device.guards.iter_mut().zip(chunks) {
        load_guard(guard, words);
    }
    device
}

fn load_guard(guard: &mut Guard, words: &[u32]) {
    let (head, rest) = words.split_at(GUARD_HEAD);
    [guard.cr, guard.iasr, guard.iaesr, guard.iaddr] = [head[0], head[1], head[2], head[3]];
    let chunks = rest.chunks_exact(REGION_WORDS);
    for (region, words) in guard.regions.iter_mut().zip(chunks) {
        let subregion = |first: usize| Subregion {
            cfgr: words[first],
            start: words[first + 1],
            end: words[first + 2],
            nest: words[first + 3],
        };
        *region = Region {
            cfgr: words[0],
            start: words[1],
            end: words[2],
            cidcfgr: words[3],
            subregions: [subregion(4), subregion(8)],
        };
    }
}

/// Puts the model's state into as many words as a state has.
pub fn store(device: &Device, words: &mut [u32]) {
    let (rifsc, rest) = words.split_at_mut(RIFSC_WORDS);
    let (iac, guards) = rest.split_at_mut(FIRST_GUARD - RIFSC_WORDS);
    rifsc[0] = device.rifsc.cr;
    rifsc[1..7].copy_from_slice(&device.rifsc.seccfgr);
    rifsc[7..13].copy_from_slice(&device.rifsc.privcfgr);
    rifsc[13..19].copy_from_slice(&device.rifsc.rcfglockr);
    rifsc[19] = device.rifsc.rimc_cr;
    rifsc[20..].copy_from_slice(&device.rifsc.attr);
    iac[..6].copy_from_slice(&device.iac.ier);
    iac[6..12].copy_from_slice(&device.iac.isr);
    iac[12..].copy_from_slice(&[device.iac.line, device.iac.count]);
    let chunks = guards.chunks_exact_mut(GUARD_WORDS);
    for (guard, words) in device.guards.iter().zip(chunks) {
        let (head, rest) = words.split_at_mut(GUARD_HEAD);
        head.copy_from_slice(&[guard.cr, guard.iasr, guard.iaesr, guard.iaddr]);
        let chunks = rest.chunks_exact_mut(REGION_WORDS);
        for (region, words) in guard.regions.iter().zip(chunks) {
            words.copy_from_slice(&region_words(region));
        }
    }
}

fn region_words(region: &Region) -> [u32; REGION_WORDS] {
    let [a, b] = &region.subregions;
    [
        region.cfgr,
        region.start,
        region.end,
        region.cidcfgr,
        a.cfgr,
        a.start,
        a.end,
        a.nest,
        b.cfgr,
        b.start,
        b.end,
        b.nest,
    ]
}

/// The words of the state after reset.
pub fn reset_words() -> Vec<u32> {
    let mut words = vec![0; STATE_WORDS];
    store(&Device::reset_state(), &mut words);
    words
}
