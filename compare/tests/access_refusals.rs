//! Each refusal number of peripheral, memory and master accesses, of a batch
//! and of a map.

mod common;

use common::{access, master, memory, peripheral, set, unchanged, word, NO_GUARDS};
use compare::model::{Answer, Block, Device, Event, Purpose};

const RIFSC: Block = Block::Rifsc;
const IAC: Block = Block::Iac;
const GUARD: Block = Block::Risaf(2);

#[test]
fn no_such_guard() {
    for number in NO_GUARDS {
        unchanged(|d| assert_eq!(memory(d, number, 0, 1, "r sp"), (4, 0)));
        unchanged(|d| assert_eq!(master(d, 0, number, 0, 4), (4, 0)));
        assert_eq!(Device::reset_state().map(number), Err(Answer::NoTarget));
    }
}

#[test]
fn peripherals() {
    for missing in [
        7,
        59,
        63,
        66,
        70,
        75,
        85,
        91,
        105,
        107,
        127,
        128,
        160,
        u32::MAX,
    ] {
        unchanged(|d| assert_eq!(peripheral(d, missing, Purpose::Fetch, "nu"), 4));
        unchanged(|d| assert_eq!(peripheral(d, missing, Purpose::Read, "sp"), 4));
    }
    for existing in [0, 58, 64, 95, 98, 106] {
        unchanged(|d| assert_eq!(peripheral(d, existing, Purpose::Fetch, "nu"), 7));
        unchanged(|d| assert_eq!(peripheral(d, existing, Purpose::Write, "nu"), 0));
    }
    let mut device = Device::reset_state();
    set(&mut device, RIFSC, 0x018, 0x8000_0001);
    set(&mut device, RIFSC, 0x038, 0x0000_0002);
    assert_eq!(peripheral(&mut device, 64, Purpose::Fetch, "nu"), 7);
    assert_eq!(word(&mut device, IAC, 0x88), 0);
    assert_eq!(peripheral(&mut device, 64, Purpose::Read, "nu"), 1);
    assert_eq!(peripheral(&mut device, 65, Purpose::Write, "nu"), 1);
    assert_eq!(peripheral(&mut device, 95, Purpose::Write, "nu"), 1);
    assert_eq!(word(&mut device, IAC, 0x88), 3);
    assert_eq!(device.iac.isr[2], 3);
    assert_eq!(peripheral(&mut device, 64, Purpose::Read, "su"), 0);
    assert_eq!(peripheral(&mut device, 65, Purpose::Write, "np"), 0);
}

#[test]
fn memory_refusals_in_order() {
    let try_one = |guard, offset, width, cid| {
        let mut one = access(guard, offset, cid, "r nu");
        one.width = width;
        Device::reset_state().apply(&Event::Memory(one)).number()
    };
    for width in [0, 3, 5, 8, u32::MAX] {
        assert_eq!(try_one(2, u32::MAX, width, 1), 4);
    }
    for cid in [8, 256, u32::MAX] {
        assert_eq!(try_one(2, u32::MAX, 4, cid), 4);
    }
    assert_eq!(try_one(2, u32::MAX, 2, 1), 5);
    assert_eq!(try_one(2, 2, 4, 1), 5);
    assert_eq!(try_one(2, u32::MAX, 1, 1), 6);
    assert_eq!(try_one(4, u32::MAX, 1, 1), 1);
    let sizes = [(1, 1 << 30), (2, 1 << 20), (3, 1 << 20), (7, 409_600)];
    let more = [(8, 262_144), (9, 131_072), (11, 1 << 28), (14, 1 << 28)];
    let ahb = [(15, 4_096), (21, 16_384), (22, 16_384), (23, 4_096)];
    for (guard, size) in sizes.into_iter().chain(more).chain(ahb) {
        assert_eq!(try_one(guard, size, 4, 1), 6);
        assert_eq!(try_one(guard, size - 4, 4, 1), 1);
    }
}

#[test]
fn masters() {
    let mut device = Device::reset_state();
    for none in [13, 99, u32::MAX] {
        unchanged(|d| assert_eq!(master(d, none, 2, 1, 4), (4, 0)));
    }
    assert_eq!(master(&mut device, 12, 2, 0, 3), (4, 0));
    assert_eq!(master(&mut device, 12, 2, 2, 4), (5, 0));
    assert_eq!(master(&mut device, 12, 2, 1 << 20, 4), (6, 0));
    assert_eq!(master(&mut device, 12, 2, 4, 4), (1, 1));
    assert_eq!(word(&mut device, GUARD, 0x20), 0);
    assert_eq!(word(&mut device, GUARD, 0x24), 4);
    set(&mut device, RIFSC, 0xC40, 0x310);
    set(&mut device, RIFSC, 0x01C, 1 << 1);
    assert_eq!(master(&mut device, 12, 2, 4, 4), (0, 0));
    device.rifsc.attr[12] = 0x370;
    assert_eq!(master(&mut device, 12, 2, 4, 4), (0, 0));
}

#[test]
fn batches() {
    let list = [
        access(2, 0, 1, "r sp"),
        access(2, 5, 2, "w sp"),
        access(10, 0, 1, "r sp"),
    ];
    unchanged(|d| assert_eq!(d.batch(&list, 2), (Answer::WrongLength, vec![])));
    unchanged(|d| assert_eq!(d.batch(&[], 0), (Answer::Done(0), vec![])));
    assert_eq!(
        (Answer::WrongLength.number(), Answer::WrongLength.value()),
        (8, 0)
    );
    let (mut together, mut single) = (Device::reset_state(), Device::reset_state());
    let (answer, answers) = together.batch(&list, 5);
    let one_by_one = list.map(|one| single.apply(&Event::Memory(one)));
    assert_eq!(answer, Answer::Done(0));
    assert_eq!(answers, one_by_one);
    assert_eq!(
        answers.iter().map(|a| a.number()).collect::<Vec<_>>(),
        [0, 1, 4]
    );
    assert_eq!(together, single);
}
