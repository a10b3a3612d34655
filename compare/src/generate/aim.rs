//! Single events, aimed at what a state holds.

use super::delegated::delegated_write;
use super::flags::flag_event;
use super::masters::master_access;
use super::registers::{self, direction};
use crate::harness::random::Random;
use crate::harness::words::region_at;
use crate::model::{
    Block, Direction, Event, MemoryAccess, PeripheralAccess, Purpose, GUARDS, SHAPES,
};

/// The words START and END of a region, its subregion A and its subregion B.
const BOUNDS: [usize; 6] = [1, 2, 5, 6, 9, 10];

/// A guard's number: mostly one that exists, sometimes any.
pub fn guard_number(random: &mut Random) -> u32 {
    match random.below(40) {
        0 => random.pick(&[0, 10, 16, 17, 18, 19, 20, 24, 255, 256, 258, u32::MAX]),
        1 => random.word(),
        // The widest windows with the most regions.
        2..=7 => random.pick(&[4, 5, 6]),
        // The guards on the AHB bus.
        8..=13 => random.pick(&[15, 21, 22, 23]),
        _ => SHAPES[random.below(GUARDS)].number,
    }
}

/// Where a guard of that number stands; no matter where if there is none.
pub fn place_of(guard: u32) -> usize {
    let place = SHAPES.iter().position(|shape| shape.number == guard);
    place.unwrap_or(0)
}

/// Where a region's words start, and where in it a subregion's do.
#[derive(Clone, Copy)]
struct Aim {
    region: usize,
    subregion: usize,
}

fn aim(random: &mut Random, place: usize) -> Aim {
    let region = region_at(place, random.below(SHAPES[place].regions));
    Aim {
        region,
        subregion: region + random.pick(&[4, 8]),
    }
}

fn offset(random: &mut Random, words: &[u32], place: usize, aim: Aim) -> u32 {
    let window = SHAPES[place].window;
    let bounds = [
        aim.region + 1,
        aim.region + 2,
        aim.subregion + 1,
        aim.subregion + 2,
    ];
    let bound = words[random.pick(&bounds)];
    match random.below(16) {
        0 => random.word(),
        1 => (window as u32)
            .wrapping_sub(4)
            .wrapping_add(random.below(8) as u32),
        2 | 3 => (random.number() % window) as u32,
        4 | 5 => near(random, bound),
        _ => (u64::from(near(random, bound)) % window) as u32,
    }
}

fn near(random: &mut Random, bound: u32) -> u32 {
    const STEPS: [u32; 12] = [0, 0, 1, 1, 2, 3, 4, 0x1FF, 0x200, 0x7FF, 0xFFF, 0x1000];
    let step = random.pick(&STEPS);
    if random.flag() {
        bound.wrapping_add(step)
    } else {
        bound.wrapping_sub(step)
    }
}

/// A width, and the offset mostly made to fit it.
fn width(random: &mut Random, offset: u32) -> (u32, u32) {
    let width = match random.below(40) {
        0 => random.pick(&[0, 3, 5, 6, 7, 8, 16, 256, 257, u32::MAX]),
        _ => random.pick(&[1, 1, 2, 4]),
    };
    let fits = !matches!(width, 2 | 4) || random.one_in(8);
    (width, if fits { offset } else { offset & !(width - 1) })
}

/// Who asks, and for what.
struct Asker {
    direction: Direction,
    cid: u32,
    secure: bool,
    privileged: bool,
}

/// Anybody at all.
fn anybody(random: &mut Random) -> Asker {
    Asker {
        direction: direction(random),
        cid: match random.below(20) {
            0 => random.pick(&[8, 9, 15, 255, 256, 257, u32::MAX]),
            _ => random.below(8) as u32,
        },
        secure: random.flag(),
        privileged: random.flag(),
    }
}

/// Somebody whom the default rule, a region or a subregion admits, if nothing
/// else covers the place.
fn friend(random: &mut Random, words: &[u32], aim: Aim) -> Asker {
    let (base, subregion) = (words[aim.region], words[aim.subregion]);
    let sec = |cfgr: u32| cfgr & 0x100 != 0;
    let (cid, secure) = match random.below(5) {
        0 => (1, true),
        1 | 2 => (random.below(8) as u32, sec(base)),
        _ => (subregion >> 4 & 7, sec(base) && sec(subregion)),
    };
    Asker {
        direction: direction(random),
        cid: if random.one_in(6) { 7 } else { cid },
        secure,
        privileged: !random.one_in(4),
    }
}

fn asker(random: &mut Random, words: &[u32], aim: Aim) -> Asker {
    if random.one_in(3) {
        anybody(random)
    } else {
        friend(random, words, aim)
    }
}

pub fn memory_access(random: &mut Random, words: &[u32]) -> MemoryAccess {
    let guard = guard_number(random);
    let place = place_of(guard);
    let aim = aim(random, place);
    let offset = offset(random, words, place, aim);
    let (width, offset) = width(random, offset);
    access_of(asker(random, words, aim), guard, offset, width)
}

fn access_of(asker: Asker, guard: u32, offset: u32, width: u32) -> MemoryAccess {
    MemoryAccess {
        guard,
        offset,
        width,
        direction: asker.direction,
        cid: asker.cid,
        secure: asker.secure,
        privileged: asker.privileged,
    }
}

pub fn peripheral_access(random: &mut Random) -> PeripheralAccess {
    PeripheralAccess {
        peripheral: match random.below(40) {
            0 => random.word(),
            1 => random.below(200) as u32,
            _ => random.below(132) as u32,
        },
        purpose: match random.below(8) {
            0 => Purpose::Fetch,
            _ => random.pick(&[Purpose::Read, Purpose::Write]),
        },
        secure: random.flag(),
        privileged: random.flag(),
    }
}

pub fn block(random: &mut Random) -> Block {
    match random.below(5) {
        0 => Block::Rifsc,
        1 => Block::Iac,
        _ => Block::Risaf(guard_number(random)),
    }
}

/// Any event but reset, on a state of the right length.
pub fn event(random: &mut Random, words: &[u32]) -> Event {
    match random.below(22) {
        0..=7 => {
            let block = block(random);
            Event::Register(registers::access(random, block))
        }
        8..=13 => Event::Memory(memory_access(random, words)),
        14..=17 => Event::Master(master_access(random, words)),
        18 | 19 => Event::Peripheral(peripheral_access(random)),
        20 => delegated_write(random, words),
        _ => flag_event(random, words),
    }
}

/// Accesses at every boundary of a guard's regions and of its window, and on
/// both sides of it, each by somebody.
pub fn sweep(random: &mut Random, words: &[u32], place: usize) -> Vec<Event> {
    let shape = &SHAPES[place];
    let mut targets = Vec::new();
    for region in (0..shape.regions).map(|region| region_at(place, region)) {
        for bound in BOUNDS {
            let subregion = region + if bound < 8 { 4 } else { 8 };
            targets.push((words[region + bound], Aim { region, subregion }));
        }
    }
    let anywhere = aim(random, place);
    targets.extend([(0, anywhere), (shape.window as u32, anywhere)]);
    let mut events = Vec::with_capacity(3 * targets.len());
    for (bound, aim) in targets {
        for offset in [bound.wrapping_sub(1), bound, bound.wrapping_add(1)] {
            let asker = asker(random, words, aim);
            let access = access_of(asker, shape.number, offset, 1);
            events.push(Event::Memory(access));
        }
    }
    events
}
