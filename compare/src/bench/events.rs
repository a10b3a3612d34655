//! The other calls that have a state: registers, peripherals, reset, the line.

use super::accesses::{GUARD, SINGLE};
use super::measure::{item, Item};
use crate::harness::words::{device_of, reset_words};
use crate::linked::Library;
use crate::model::{Block, Device, Direction, Event, PeripheralAccess, Purpose, RegisterAccess};
use std::hint::black_box;

/// An access to a register of a block, of the benchmarks' guard where it is a guard's.
pub struct Port {
    pub block: Block,
    pub offset: u32,
    pub direction: Direction,
    /// Whether it is secure; it is privileged in any case.
    pub secure: bool,
}

pub fn rifsc(offset: u32, direction: Direction) -> Port {
    port(Block::Rifsc, offset, direction)
}

pub fn iac(offset: u32, direction: Direction) -> Port {
    port(Block::Iac, offset, direction)
}

pub fn risaf(offset: u32, direction: Direction) -> Port {
    port(Block::Risaf(GUARD), offset, direction)
}

fn port(block: Block, offset: u32, direction: Direction) -> Port {
    Port {
        block,
        offset,
        direction,
        secure: true,
    }
}

/// After reset, with other data at each call.
pub fn register(name: &str, port: Port) -> Item {
    let mut device = Device::reset_state();
    let access = move |data| RegisterAccess {
        block: port.block,
        offset: port.offset,
        direction: port.direction,
        data,
        secure: port.secure,
        privileged: true,
    };
    let number = match port.block {
        Block::Rifsc => 0,
        Block::Iac => 1,
        Block::Risaf(_) => 2,
    };
    let library = |library: &'static Library| {
        let mut state = reset_words();
        move || {
            for data in 0..SINGLE as u32 {
                black_box(library.register(&mut state, number, GUARD, &access(data)));
            }
        }
    };
    let second = move || {
        for data in 0..SINGLE as u32 {
            black_box(device.apply(&Event::Register(access(data))));
        }
    };
    item(name, SINGLE, library, second)
}

pub fn peripheral(name: &str, words: &[u32], purpose: Purpose) -> Item {
    let mut device = device_of(words);
    let access = PeripheralAccess {
        peripheral: 60,
        purpose,
        secure: false,
        privileged: true,
    };
    let operation = match purpose {
        Purpose::Read => 0,
        Purpose::Write => 1,
        Purpose::Fetch => 2,
    };
    let library = |library: &'static Library| {
        let mut state = words.to_vec();
        move || {
            for _ in 0..SINGLE {
                black_box(library.peripheral(&mut state, operation, &access));
            }
        }
    };
    let second = move || {
        for _ in 0..SINGLE {
            black_box(device.apply(&Event::Peripheral(access)));
        }
    };
    item(name, SINGLE, library, second)
}

pub fn reset(name: &str) -> Item {
    let mut device = Device::reset_state();
    let library = |library: &'static Library| {
        let mut state = reset_words();
        move || {
            black_box(library.reset(&mut state));
        }
    };
    let second = move || {
        black_box(device.apply(&Event::Reset));
    };
    item(name, 1, library, second)
}

pub fn line(name: &str) -> Item {
    let device = Device::reset_state();
    let library = |library: &'static Library| {
        let state = reset_words();
        move || {
            for _ in 0..SINGLE {
                black_box(library.line(black_box(&state)));
            }
        }
    };
    let second = move || {
        for _ in 0..SINGLE {
            black_box(black_box(&device).interrupt_line());
        }
    };
    item(name, SINGLE, library, second)
}
