//! What masters carry: MSEC and the SEC bit of the guarding peripheral.

mod common;

use common::random::Random;
use common::{master, set, word, GUARD_NUMBERS};
use compare::model::{Block, Device, Direction, Event, MasterAccess, MemoryAccess, GUARDING, PPSR};
use compare::text::run;

const RIFSC: Block = Block::Rifsc;
const GUARD: Block = Block::Risaf(2);
const IAESR: u32 = 0x20;

/// Masters with their guarding peripherals, as the request lists them.
const LISTED: [(u32, u32); 12] = [
    (1, 106),
    (2, 53),
    (3, 54),
    (4, 56),
    (5, 57),
    (6, 60),
    (7, 99),
    (8, 101),
    (9, 93),
    (10, 103),
    (11, 104),
    (12, 97),
];

/// Writes a master's ATTR from reset.
fn with_attr(number: u32, attr: u32) -> Device {
    let mut device = Device::reset_state();
    set(&mut device, RIFSC, 0xC10 + 4 * number, attr);
    device
}

/// Makes one peripheral secure or not and leaves the others.
fn set_sec(device: &mut Device, peripheral: u32, secure: bool) {
    let (offset, place) = (0x010 + peripheral / 32 * 4, peripheral % 32);
    let others = word(device, RIFSC, offset) & !(1 << place);
    set(device, RIFSC, offset, others | u32::from(secure) << place);
}

fn set_all_sec(device: &mut Device) {
    for x in 0..6 {
        set(device, RIFSC, 0x010 + 4 * x, u32::MAX);
    }
}

/// What a master's read of guard 2 at 0 gets: 0, or why not; then IAESR.
fn asks(device: &Device, number: u32) -> (u32, u32) {
    let mut device = device.clone();
    let (answer, value) = master(&mut device, number, 2, 0, 4);
    assert_eq!(answer, u32::from(value != 0));
    (value, word(&mut device, GUARD, IAESR))
}

#[test]
fn marked_examples() {
    let mut device = with_attr(6, 0x0000_0310);
    assert_eq!(asks(&device, 6).0, 1);
    set(&mut device, RIFSC, 0x014, 1 << 28);
    assert_eq!(asks(&device, 6).0, 0);
}

#[test]
fn marked_examples_as_lines() {
    let script = "reg rifsc 00000c28 w 00000310 s p\ndma 6 2 00000000 4 r\n\
                  reg rifsc 00000014 w 10000000 s p\ndma 6 2 00000000 4 r\n";
    let mut printed = Vec::new();
    run(script.replace(' ', "\t").as_bytes(), &mut printed).unwrap();
    let expected = [0, 1, 0, 0].map(|number| format!("ans\t{number}\t0000000{number}\n"));
    assert_eq!(printed, expected.concat().as_bytes());
}

#[test]
fn each_master_has_the_listed_peripheral_and_no_other() {
    for (number, peripheral) in LISTED {
        let mut device = with_attr(number, 0x310);
        assert_eq!(asks(&device, number), (1, 0x11));
        set_sec(&mut device, peripheral, true);
        assert_eq!(asks(&device, number), (0, 0));
        set_all_sec(&mut device);
        assert_eq!(asks(&device, number), (0, 0));
        set_sec(&mut device, peripheral, false);
        assert_eq!(asks(&device, number), (1, 0x11));
    }
    assert_eq!(GUARDING[0], None);
    assert!(LISTED.iter().all(|&(m, p)| GUARDING[m as usize] == Some(p)));
    let present = |p: u32| PPSR[p as usize / 32] >> (p % 32) & 1 == 1;
    assert!(LISTED.iter().all(|&(_, p)| present(p)));
}

#[test]
fn master_0_carries_msec_as_stored() {
    for (attr, expected) in [(0x310, (0, 0)), (0x210, (1, 0x11))] {
        let mut device = with_attr(0, attr);
        assert_eq!(asks(&device, 0), expected);
        set_all_sec(&mut device);
        assert_eq!(asks(&device, 0), expected);
    }
}

#[test]
fn a_secure_peripheral_alone_makes_no_secure_access() {
    for (number, _) in LISTED {
        let mut device = with_attr(number, 0x210);
        set_all_sec(&mut device);
        assert_eq!(asks(&device, number), (1, 0x11));
    }
}

#[test]
fn iaesr_records_the_flag_as_carried() {
    // CID 2 is refused at guard 2 either way, for its security first.
    for (number, peripheral) in LISTED {
        let mut device = with_attr(number, 0x320);
        assert_eq!(asks(&device, number), (1, 0x12));
        set_sec(&mut device, peripheral, true);
        assert_eq!(asks(&device, number), (3, 0x32));
    }
    assert_eq!(asks(&with_attr(0, 0x320), 0), (3, 0x32));
}

#[test]
fn a_nonsecure_region_admits_what_the_guarding_peripheral_made_nonsecure() {
    let mut device = with_attr(6, 0x310);
    set(&mut device, GUARD, 0x4C, 0x0002_0002);
    set(&mut device, GUARD, 0x40, 0x0000_0001);
    assert_eq!(master(&mut device, 6, 2, 0, 4), (0, 1));
    set_sec(&mut device, 60, true);
    assert_eq!(master(&mut device, 6, 2, 0, 4), (1, 1));
    assert_eq!(word(&mut device, GUARD, IAESR), 0x31);
}

#[test]
fn attr_still_reads_as_written() {
    let mut device = with_attr(6, 0x310);
    assert_eq!(asks(&device, 6).0, 1);
    assert_eq!(word(&mut device, RIFSC, 0xC28), 0x310);
}

/// The memory access that the request makes of a master's.
fn as_memory(device: &Device, asked: &MasterAccess) -> MemoryAccess {
    let attr = device.rifsc.attr[asked.master as usize];
    let guarding = LISTED.iter().find(|listed| listed.0 == asked.master);
    let sec = |p: u32| device.rifsc.seccfgr[p as usize / 32] & (1 << (p % 32)) != 0;
    MemoryAccess {
        guard: asked.guard,
        offset: asked.offset,
        width: asked.width,
        direction: asked.direction,
        cid: attr / 16 % 8,
        secure: attr & 0x100 != 0 && guarding.is_none_or(|&(_, p)| sec(p)),
        privileged: attr & 0x200 != 0,
    }
}

#[test]
fn a_master_access_is_the_memory_access_it_carries() {
    let mut random = Random::new(6);
    let mut nonsecured = 0;
    for _ in 0..500 {
        let mut device = random.device();
        for _ in 0..20 {
            let asked = MasterAccess {
                master: random.below(13),
                guard: GUARD_NUMBERS[random.below(17) as usize],
                offset: random.offset(),
                width: 1,
                direction: [Direction::Read, Direction::Write][random.below(2) as usize],
            };
            let carried = as_memory(&device, &asked);
            let msec = device.rifsc.attr[asked.master as usize] & 0x100 != 0;
            nonsecured += u32::from(msec && !carried.secure);
            let mut other = device.clone();
            let answer = device.apply(&Event::Master(asked));
            assert_eq!(answer, other.apply(&Event::Memory(carried)));
            assert_eq!(device, other);
        }
    }
    assert!(nonsecured > 1_000, "{nonsecured}");
}
