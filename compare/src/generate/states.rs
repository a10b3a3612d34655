//! Random contents of a state's memory.

use super::flags::hold;
use crate::harness::random::Random;
use crate::harness::words::{
    guard_at, region_at, reset_words, IER_AT, LINE_AT, REGION_WORDS, STATE_WORDS,
};
use crate::model::{Bus, Shape, GUARDS, REGIONS_STORED, SHAPES};

/// Every bit of every word random.
pub fn random_state(random: &mut Random) -> Vec<u32> {
    random_words(random, STATE_WORDS)
}

pub fn random_words(random: &mut Random, count: usize) -> Vec<u32> {
    (0..count).map(|_| random.word()).collect()
}

/// A random state whose guards have all their regions and subregions inside
/// the window, close together and mostly enabled.
pub fn dense_state(random: &mut Random) -> Vec<u32> {
    let mut words = random_state(random);
    if random.flag() {
        words[0] &= !1;
        words[19] &= !1;
    }
    // Few flags and enables, so that few are both.
    for word in &mut words[IER_AT..LINE_AT] {
        *word &= random.word() & random.word() & random.word();
    }
    hold(random, &mut words);
    for place in 0..GUARDS {
        if random.flag() {
            words[guard_at(place)] &= !1;
        }
        dense_guard(random, &mut words, place);
    }
    words
}

/// What most regions of a guard agree on, so that some accesses are granted.
struct Theme {
    secure: u32,
    cid: u32,
    bus: Bus,
    /// Offsets are multiples of this.
    step: u64,
    low_bits: u32,
}

/// Those past the guard's count too, which must not matter.
fn dense_guard(random: &mut Random, words: &mut [u32], place: usize) {
    let shape = &SHAPES[place];
    let granule = u64::from(shape.granule);
    let wide = (shape.window / 16) & !(granule - 1);
    let cid = random.below(8) as u32;
    let theme = Theme {
        secure: u32::from(random.flag()) << 8,
        cid: shape.bus.cid(cid),
        bus: shape.bus,
        step: random.pick(&[granule, 2 * granule, wide.max(granule)]),
        low_bits: shape.low_bits(),
    };
    let tiled = random.one_in(4);
    for region in 0..REGIONS_STORED {
        let at = region_at(place, region);
        let words = &mut words[at..at + REGION_WORDS];
        dense_rights(random, words, &theme);
        if tiled && region < shape.regions {
            let tile = shape.window / shape.regions as u64;
            tile_bounds(random, words, tile * region as u64, tile);
        } else {
            let bounds = dense_bounds(random, 0, shape.window, &theme);
            (words[1], words[2]) = bounds;
            for first in [5, 9] {
                let (low, high) = (u64::from(bounds.0), u64::from(bounds.1) + 1);
                (words[first], words[first + 1]) = dense_bounds(random, low, high, &theme);
            }
        }
    }
}

/// All but the bounds of a region.
fn dense_rights(random: &mut Random, words: &mut [u32], theme: &Theme) {
    for cfgr in [0, 4, 8] {
        dense_cfgr(random, &mut words[cfgr], theme);
    }
    words[0] &= !0x00FF_0000 | random.word();
    if !random.one_in(4) {
        words[3] |= 0x0001_0001 << theme.cid;
    }
    for nest in [7, 11] {
        if random.flag() {
            // Delegated to the register port's own compartment.
            words[nest] = words[nest] & !0x70 | theme.bus.port() << 4 | 0x4;
        }
    }
    for cfgr in [4, 8] {
        if theme.bus == Bus::Ahb && random.flag() {
            // Open to the one compartment there is.
            words[cfgr] &= !0x70;
        }
    }
}

/// Both subregions inside the region, all three enabled, with gaps between
/// them: as many rows of a map as there can be.
fn tile_bounds(random: &mut Random, words: &mut [u32], low: u64, size: u64) {
    let sixth = size / 6;
    let mut cut = |place: u64| (low + place * sixth + random.number() % sixth) as u32;
    (words[1], words[2]) = (cut(0), cut(5));
    (words[5], words[6]) = (cut(1), cut(2));
    (words[9], words[10]) = (cut(3), cut(4));
    words[0] |= 1;
    words[4] |= 0x3001;
    words[8] |= 0x3001;
}

/// Enabled three times of four; SEC mostly the theme's.
fn dense_cfgr(random: &mut Random, cfgr: &mut u32, theme: &Theme) {
    if !random.one_in(4) {
        *cfgr |= 1;
    }
    if !random.one_in(4) {
        *cfgr = *cfgr & !0x100 | theme.secure;
    }
}

/// START and END, mostly between the two offsets and whole granules; at times
/// out of order, past the window, or inside a granule.
fn dense_bounds(random: &mut Random, low: u64, high: u64, theme: &Theme) -> (u32, u32) {
    let steps = (high.saturating_sub(low) / theme.step).clamp(1, 32) as usize;
    let mut offset = || low + theme.step * random.below(steps + 1) as u64;
    let (mut start, mut end) = (offset(), offset());
    if start > end && !random.one_in(8) {
        (start, end) = (end, start);
    }
    let end = (end as u32).wrapping_add(theme.low_bits);
    let start = start as u32;
    if random.one_in(8) {
        let noise = random.word();
        let low_bits = theme.low_bits;
        return (start ^ noise & low_bits, end ^ noise >> 12 & low_bits);
    }
    (start, end)
}

/// Reset, but all regions and subregions of all guards cover all of the window
/// and, where there are CIDs, admit CID 2 secure.
pub fn crowded_state() -> Vec<u32> {
    fixed_state(|_, region| {
        region[..3].copy_from_slice(&[0x101, 0, u32::MAX]);
        for first in [4, 8] {
            region[first..first + 3].copy_from_slice(&[0x3121, 0, u32::MAX]);
        }
    })
}

/// Reset, but with as many spans in each guard's map as there can be.
pub fn tiled_state() -> Vec<u32> {
    let mut random = Random::new(1);
    fixed_state(|(index, shape), region| {
        let tile = shape.window / shape.regions as u64;
        tile_bounds(&mut random, region, tile * index as u64, tile);
        region[0] |= 0x100;
        region[3] = 0x0003_0003;
        region[4] |= 0x0120;
        region[8] |= 0x0130;
    })
}

/// Reset, with every guard's own regions filled in.
fn fixed_state(mut fill: impl FnMut((usize, &Shape), &mut [u32])) -> Vec<u32> {
    let mut words = reset_words();
    for (place, shape) in SHAPES.iter().enumerate() {
        for index in 0..shape.regions {
            let at = region_at(place, index);
            fill((index, shape), &mut words[at..at + REGION_WORDS]);
        }
    }
    words
}
