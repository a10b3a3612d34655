//! Flags and enables, what is held of them, and the events that change them.

use super::aim::guard_number;
use crate::harness::random::Random;
use crate::harness::words::{COUNT_AT, IER_AT, ISR_AT, LINE_AT};
use crate::model::{Block, Direction, Event, PeripheralAccess, Purpose, RegisterAccess, IISR};

/// Few flags and few enables, often the same.
pub fn few_flags(random: &mut Random, words: &mut [u32]) {
    words[IER_AT..LINE_AT].fill(0);
    for _ in 0..1 + random.below(3) {
        let (enable, flag) = (random.below(192), random.below(192));
        let flag = if random.flag() { enable } else { flag };
        words[IER_AT + enable / 32] |= 1 << (enable % 32);
        words[ISR_AT + flag / 32] |= 1 << (flag % 32);
    }
}

/// The held line and count: any at all, a count near where it turns over, or
/// both true. The other bits of their words are random.
pub fn hold(random: &mut Random, words: &mut [u32]) {
    let both = |x: usize| words[IER_AT + x] & words[ISR_AT + x] & IISR[x];
    let fresh: u32 = (0..6).map(|x| both(x).count_ones()).sum();
    let (line, count) = match random.below(3) {
        0 => (random.word(), random.word()),
        1 => (random.word(), random.pick(&[0, 0, 1, 2, 254, 255])),
        _ => (u32::from(fresh > 0), fresh),
    };
    words[LINE_AT] = random.word() & !1 | line & 1;
    words[COUNT_AT] = random.word() & !0xFF | count & 0xFF;
}

/// The first bit that is 1 from some place on, or that place if none is.
fn some_bit(random: &mut Random, word: u32) -> u32 {
    let place = random.below(32) as u32;
    match word.rotate_right(place) {
        0 => place,
        rotated => (place + rotated.trailing_zeros()) % 32,
    }
}

/// A raise by somebody without rights, or a write to IER or ICR.
pub fn flag_event(random: &mut Random, words: &[u32]) -> Event {
    match random.below(4) {
        0 => peripheral(random, words),
        1 => refused_register(random),
        _ => write(random, words),
    }
}

/// Often at a peripheral whose flag or enable is 1.
fn peripheral(random: &mut Random, words: &[u32]) -> Event {
    let x = random.below(4);
    let kind = random.pick(&[IER_AT, ISR_AT]);
    Event::Peripheral(PeripheralAccess {
        peripheral: 32 * x as u32 + some_bit(random, words[kind + x]),
        purpose: Purpose::Read,
        secure: false,
        privileged: false,
    })
}

fn refused_register(random: &mut Random) -> Event {
    let guard = Block::Risaf(guard_number(random));
    let (block, offset, direction) = random.pick(&[
        (Block::Rifsc, 0x000, Direction::Write),
        (Block::Iac, 0x000, Direction::Read),
        (guard, 0x008, Direction::Read),
    ]);
    Event::Register(RegisterAccess {
        block,
        offset,
        direction,
        data: 0,
        secure: false,
        privileged: true,
    })
}

/// To IER or ICR: any data, or data that change one bit, none, or only bits
/// that are not present.
fn write(random: &mut Random, words: &[u32]) -> Event {
    let x = random.below(6);
    let (enables, flags) = (words[IER_AT + x], words[ISR_AT + x]);
    let one = 1 << some_bit(random, enables | flags);
    let (any, absent) = (random.word(), !IISR[x]);
    let (first, data) = if random.flag() {
        let data = [any, enables ^ one, enables, enables ^ absent];
        (0x000, random.pick(&data))
    } else {
        (0x100, random.pick(&[any, one, flags, !flags, absent]))
    };
    Event::Register(RegisterAccess {
        block: Block::Iac,
        offset: first + 4 * x as u32,
        direction: Direction::Write,
        data,
        secure: !random.one_in(8),
        privileged: true,
    })
}
