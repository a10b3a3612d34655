//! Helpers shared by the tests; no one test file uses them all.
#![allow(dead_code)]

pub mod random;

use compare::model::{
    Block, Device, Direction, Event, MasterAccess, MemoryAccess, PeripheralAccess, Purpose,
    RegisterAccess,
};

pub const GUARD_NUMBERS: [u32; 17] = [1, 2, 3, 4, 5, 6, 7, 8, 9, 11, 12, 13, 14, 15, 21, 22, 23];

/// The guards whose bus carries no CID.
pub fn on_ahb(guard: u32) -> bool {
    [15, 21, 22, 23].contains(&guard)
}

/// Numbers that no guard has.
pub const NO_GUARDS: [u32; 10] = [0, 10, 16, 17, 18, 19, 20, 24, 999, u32::MAX];

/// An event from reset that must change nothing.
pub fn unchanged(act: impl FnOnce(&mut Device)) {
    let mut device = Device::reset_state();
    act(&mut device);
    assert_eq!(device, Device::reset_state());
}

/// Reads "sp", "np", "su" or "nu" as secure and privileged.
pub fn rights(letters: &str) -> (bool, bool) {
    match letters {
        "sp" => (true, true),
        "np" => (false, true),
        "su" => (true, false),
        "nu" => (false, false),
        _ => panic!("rights {letters}"),
    }
}

fn register(
    device: &mut Device,
    block: Block,
    offset: u32,
    write: Option<u32>,
    letters: &str,
) -> (u32, u32) {
    let (secure, privileged) = rights(letters);
    let answer = device.apply(&Event::Register(RegisterAccess {
        block,
        offset,
        direction: if write.is_some() {
            Direction::Write
        } else {
            Direction::Read
        },
        data: write.unwrap_or(0xFFFF_FFFF),
        secure,
        privileged,
    }));
    (answer.number(), answer.value())
}

pub fn write(device: &mut Device, block: Block, offset: u32, data: u32, letters: &str) -> u32 {
    let (number, value) = register(device, block, offset, Some(data), letters);
    assert_eq!(value, 0);
    number
}

pub fn read(device: &mut Device, block: Block, offset: u32, letters: &str) -> (u32, u32) {
    register(device, block, offset, None, letters)
}

/// The word of a secure privileged read that must be done.
pub fn word(device: &mut Device, block: Block, offset: u32) -> u32 {
    let (number, value) = read(device, block, offset, "sp");
    assert_eq!(number, 0);
    value
}

/// A secure privileged write that must be done.
pub fn set(device: &mut Device, block: Block, offset: u32, data: u32) {
    assert_eq!(write(device, block, offset, data, "sp"), 0);
}

/// A one-byte memory access; `kind` is r or w and the rights, as "r sp".
pub fn access(guard: u32, offset: u32, cid: u32, kind: &str) -> MemoryAccess {
    let (direction, letters) = kind.split_once(' ').unwrap();
    let (secure, privileged) = rights(letters);
    MemoryAccess {
        guard,
        offset,
        width: 1,
        direction: match direction {
            "r" => Direction::Read,
            "w" => Direction::Write,
            _ => panic!("direction {direction}"),
        },
        cid,
        secure,
        privileged,
    }
}

pub fn memory(device: &mut Device, guard: u32, offset: u32, cid: u32, kind: &str) -> (u32, u32) {
    let answer = device.apply(&Event::Memory(access(guard, offset, cid, kind)));
    (answer.number(), answer.value())
}

pub fn master(device: &mut Device, master: u32, guard: u32, offset: u32, width: u32) -> (u32, u32) {
    let answer = device.apply(&Event::Master(MasterAccess {
        master,
        guard,
        offset,
        width,
        direction: Direction::Read,
    }));
    (answer.number(), answer.value())
}

pub fn peripheral(device: &mut Device, peripheral: u32, purpose: Purpose, letters: &str) -> u32 {
    let (secure, privileged) = rights(letters);
    let answer = device.apply(&Event::Peripheral(PeripheralAccess {
        peripheral,
        purpose,
        secure,
        privileged,
    }));
    assert_eq!(answer.value(), 0);
    answer.number()
}
