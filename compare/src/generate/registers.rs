//! Register accesses, mostly at registers that exist.

use crate::harness::random::Random;
use crate::harness::words::REGION_WORDS;
use crate::model::{shape_of, Block, Direction, RegisterAccess, REGIONS_STORED};

/// Runs of registers: the first's offset, and how many there are.
type Runs = &'static [(u32, usize)];

const RIFSC: Runs = &[
    (0x000, 1),
    (0x010, 6),
    (0x030, 6),
    (0x050, 6),
    (0xC00, 1),
    (0xC10, 13),
    (0xFB0, 6),
];
const IAC: Runs = &[(0x000, 6), (0x080, 6), (0x100, 6), (0x36C, 6)];
const GUARD_HEAD: Runs = &[(0x000, 1), (0x008, 2), (0x020, 2)];

/// The runs of a block's registers; each region of a guard is one.
fn runs(block: Block) -> Vec<(u32, usize)> {
    match block {
        Block::Rifsc => RIFSC.to_vec(),
        Block::Iac => IAC.to_vec(),
        Block::Risaf(_) => {
            let regions = (0..REGIONS_STORED).map(|x| (region_offset(x), REGION_WORDS));
            GUARD_HEAD.iter().copied().chain(regions).collect()
        }
    }
}

/// The offset of a region's first register; regions count from 0.
pub fn region_offset(region: usize) -> u32 {
    0x040 + 0x40 * region as u32
}

/// The offsets of all registers of a block.
pub fn offsets(block: Block) -> Vec<u32> {
    let run = |(first, count): (u32, usize)| (0..count as u32).map(move |x| first + 4 * x);
    runs(block).into_iter().flat_map(run).collect()
}

fn run(random: &mut Random, block: Block) -> (u32, usize) {
    match block {
        Block::Rifsc => random.pick(RIFSC),
        Block::Iac => random.pick(IAC),
        Block::Risaf(_) if random.one_in(5) => random.pick(GUARD_HEAD),
        Block::Risaf(number) => {
            // Mostly one that the guard has.
            let own = shape_of(number).filter(|_| !random.one_in(6));
            let regions = own.map_or(REGIONS_STORED + 1, |shape| shape.regions);
            (region_offset(random.below(regions)), REGION_WORDS)
        }
    }
}

fn offset(random: &mut Random, block: Block) -> u32 {
    let (first, count) = run(random, block);
    let inside = first + 4 * random.below(count) as u32;
    match random.below(48) {
        0 | 1 => inside + 1 + random.below(3) as u32,
        2 => first.wrapping_sub(4),
        3 => first + 4 * count as u32,
        4 => inside ^ 1 << random.below(32),
        5 => random.word() & !3,
        6 => 4 * random.below(0x400) as u32,
        _ => inside,
    }
}

/// Data of all kinds: any, few bits, many bits, places of granules.
pub fn data(random: &mut Random) -> u32 {
    match random.below(9) {
        0..=2 => random.word(),
        3 => random.word() & random.word() & random.word(),
        4 => random.word() | random.word() | random.word(),
        5 => random.pick(&[0, 1, 0xFFF, 0x1000, 0x04, 0x14, 0x0000_3373, u32::MAX]),
        // Inside the smallest windows.
        6 => random.word() & 0x3FFF,
        _ => (0x1000 * random.below(0x101) as u32).wrapping_sub(u32::from(random.flag())),
    }
}

/// Locks hold until reset, so they are set seldom.
fn is_lock(block: Block, offset: u32) -> bool {
    offset == 0 && block != Block::Iac || offset == 0xC00 && block == Block::Rifsc
}

pub fn access(random: &mut Random, block: Block) -> RegisterAccess {
    let offset = offset(random, block);
    let mut data = data(random);
    if is_lock(block, offset) && !random.one_in(8) {
        data &= !1;
    }
    RegisterAccess {
        block,
        offset,
        direction: direction(random),
        data,
        secure: !random.one_in(4),
        privileged: !random.one_in(4),
    }
}

pub fn direction(random: &mut Random) -> Direction {
    random.pick(&[Direction::Read, Direction::Write])
}
