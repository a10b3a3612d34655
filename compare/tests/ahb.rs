//! The guards on the AHB bus (Q-6): no CID, their granules, windows and flags.

mod common;

use common::{access, master, memory, read, set, unchanged, word, write};
use compare::model::{Block, Device, Event, Span, IISR};
use compare::text::run;

const IAC: Block = Block::Iac;
const RIFSC: Block = Block::Rifsc;
const ISR4: u32 = 0x90;
const IAESR: u32 = 0x20;
const UNTOUCHED: u64 = 0xFFFF_0000_0000_0000;

/// Number, base regions, granule, window and flag, as the request lists them.
const LISTED: [(u32, u32, u32, u32, u32); 4] = [
    (15, 2, 4, 4_096, 153),
    (21, 7, 512, 16_384, 155),
    (22, 7, 512, 16_384, 156),
    (23, 3, 512, 4_096, 157),
];

/// A guard with its first base region enabled over one granule.
fn with_base(guard: u32, cfgr: u32, cidcfgr: u32) -> Device {
    let mut device = Device::reset_state();
    set(&mut device, Block::Risaf(guard), 0x4C, cidcfgr);
    set(&mut device, Block::Risaf(guard), 0x40, cfgr | 1);
    device
}

/// The same with subregion A.
fn with_subregion(guard: u32, base: u32, subregion: u32) -> Device {
    let mut device = with_base(guard, base, 0);
    set(&mut device, Block::Risaf(guard), 0x50, subregion);
    device
}

/// What every CID gets at offset 0, which must be the same, and leave the same.
fn asked(device: &Device, guard: u32, kind: &str) -> (u32, u32) {
    let mut first = device.clone();
    let answer = memory(&mut first, guard, 0, 0, kind);
    for cid in 1..8 {
        let mut device = device.clone();
        assert_eq!(memory(&mut device, guard, 0, cid, kind), answer);
        assert_eq!(device, first);
    }
    answer
}

#[test]
fn rule_0_tests_secure_and_privileged_only() {
    let device = Device::reset_state();
    for (guard, ..) in LISTED {
        for direction in ["r", "w"] {
            let asked = |rights| asked(&device, guard, &format!("{direction} {rights}"));
            assert_eq!(asked("sp"), (0, 0));
            assert_eq!(asked("su"), (1, 2));
            assert_eq!(asked("np"), (1, 1));
            assert_eq!(asked("nu"), (1, 1));
        }
    }
}

#[test]
fn a_cid_over_7_is_none_there_too() {
    for (guard, ..) in LISTED {
        for cid in [8, 9, 255, 256, u32::MAX] {
            unchanged(|d| assert_eq!(memory(d, guard, 0, cid, "r sp"), (4, 0)));
        }
        // Before the offset is looked at.
        unchanged(|d| assert_eq!(memory(d, guard, u32::MAX, 8, "r sp"), (4, 0)));
    }
}

#[test]
fn rule_1_goes_by_cid_0() {
    for (guard, ..) in LISTED {
        // Reads enabled for CID 0 only, writes for all but CID 0.
        let device = with_base(guard, 0, 0x00FE_0001);
        assert_eq!(asked(&device, guard, "r nu"), (0, 1));
        assert_eq!(asked(&device, guard, "w nu"), (1, 3));
        assert_eq!(asked(&device, guard, "r sp"), (1, 1));
        // Privilege wanted of CID 0 only, then of all others.
        let device = with_base(guard, 0x0001_0100, 0x00FF_00FF);
        assert_eq!(asked(&device, guard, "r su"), (1, 2));
        assert_eq!(asked(&device, guard, "r sp"), (0, 1));
        let device = with_base(guard, 0x00FE_0100, 0x00FF_00FF);
        assert_eq!(asked(&device, guard, "w su"), (0, 1));
    }
}

#[test]
fn rule_2_goes_by_cid_0() {
    for (guard, ..) in LISTED {
        let device = with_subregion(guard, 0, 0x1001);
        assert_eq!(asked(&device, guard, "r nu"), (0, 2));
        assert_eq!(asked(&device, guard, "w nu"), (1, 3));
        assert_eq!(asked(&device, guard, "r su"), (1, 1));
    }
}

#[test]
fn another_srcid_counts_and_opens_to_nobody() {
    for (guard, ..) in LISTED {
        for srcid in 1..8 {
            let cfgr = 0x3001 | srcid << 4;
            let device = with_subregion(guard, 0, cfgr);
            assert_eq!(asked(&device, guard, "r nu"), (1, 3));
            assert_eq!(asked(&device, guard, "w np"), (1, 3));
            // Its working PRIV is that of PRIVC for SRCID.
            let device = with_subregion(guard, 1 << (16 + srcid), cfgr | 0x200);
            assert_eq!(asked(&device, guard, "r nu"), (1, 2));
            let device = with_subregion(guard, 0x00FF_0000 ^ 1 << (16 + srcid), cfgr | 0x200);
            assert_eq!(asked(&device, guard, "r nu"), (1, 3));
            // Beside it B is open to CID 0, with another working PRIV.
            let mut device = with_subregion(guard, 1 << (16 + srcid), cfgr | 0x200);
            set(&mut device, Block::Risaf(guard), 0x60, 0x1201);
            assert_eq!(asked(&device, guard, "r nu"), (0, 2));
            assert_eq!(asked(&device, guard, "w nu"), (1, 3));
        }
    }
}

#[test]
fn a_masters_mcid_plays_no_part() {
    for (guard, ..) in LISTED {
        for mcid in 0..8 {
            let mut device = Device::reset_state();
            device.rifsc.attr[0] = 0x300 | mcid << 4;
            assert_eq!(master(&mut device, 0, guard, 0, 4), (0, 0));
            device.rifsc.attr[0] = 0x100 | mcid << 4;
            assert_eq!(master(&mut device, 0, guard, 0, 4), (1, 2));
            assert_eq!(word(&mut device, Block::Risaf(guard), IAESR), 0x20);
        }
        // MSEC is still bound to the guarding peripheral.
        let mut device = Device::reset_state();
        set(&mut device, RIFSC, 0xC28, 0x310);
        assert_eq!(master(&mut device, 6, guard, 0, 4), (1, 1));
        set(&mut device, RIFSC, 0x014, 1 << 28);
        assert_eq!(master(&mut device, 6, guard, 0, 4), (0, 0));
    }
}

#[test]
fn flags_of_table_28() {
    for (guard, _, _, _, flag) in LISTED {
        let block = Block::Risaf(guard);
        let mut device = Device::reset_state();
        assert_eq!(memory(&mut device, guard, 0, 1, "r nu"), (1, 1));
        assert_eq!(word(&mut device, IAC, ISR4), 1 << (flag - 128));
        assert_eq!(word(&mut device, block, IAESR), 0);
        assert_eq!(word(&mut device, block, 0x08), 2);
        let mut device = Device::reset_state();
        assert_eq!(read(&mut device, block, 0x08, "np"), (1, 0));
        assert_eq!(word(&mut device, IAC, ISR4), 1 << (flag - 128));
        assert_eq!(word(&mut device, block, 0x08), 1);
        assert_eq!(IISR[4] >> (flag - 128) & 1, 1);
    }
    // 154 is not present.
    assert_eq!(IISR[4] >> 26 & 1, 0);
}

#[test]
fn faults_are_recorded_without_cid() {
    let mut device = Device::reset_state();
    device.guard_mut(21).unwrap().iaesr = 0xFFFF_FFFF;
    assert_eq!(memory(&mut device, 21, 0x123, 5, "w np"), (1, 1));
    assert_eq!(device.guard(21).unwrap().iaesr, 0xFFFF_FFD8);
    assert_eq!(word(&mut device, Block::Risaf(21), 0x24), 0x123);
    // The first fault is kept.
    assert_eq!(memory(&mut device, 21, 0x200, 6, "r su"), (1, 2));
    assert_eq!(word(&mut device, Block::Risaf(21), IAESR), 0x90);
}

#[test]
fn the_delegated_compartment_is_0() {
    for (guard, ..) in LISTED {
        let block = Block::Risaf(guard);
        for (nest, at) in [(0x5C, 0x50), (0x6C, 0x60)] {
            let mut device = Device::reset_state();
            let mut tries = |delegation: u32, sec: u32| {
                set(&mut device, block, nest, delegation);
                set(&mut device, block, 0x40, sec);
                ["sp", "np", "su"].map(|letters| write(&mut device, block, at + 4, 0, letters))
            };
            assert_eq!(tries(0x04, 0), [0, 0, 1]);
            assert_eq!(tries(0x04, 0x100), [0, 1, 1]);
            for dccid in 1..8 {
                assert_eq!(tries(0x04 | dccid << 4, 0), [1, 1, 1]);
            }
            assert_eq!(tries(0x10, 0), [0, 1, 1]);
            assert_eq!(tries(0x00, 0), [0, 1, 1]);
        }
        // A nonsecure writer leaves SEC; RLOCK needs GLOCK.
        let mut device = Device::reset_state();
        set(&mut device, block, 0x5C, 0x04);
        assert_eq!(write(&mut device, block, 0x50, 0x3373, "np"), 0);
        assert_eq!(word(&mut device, block, 0x50), 0x3271);
        set(&mut device, block, 0x00, 1);
        assert_eq!(write(&mut device, block, 0x50, 0x3373, "np"), 0);
        assert_eq!(word(&mut device, block, 0x50), 0x3273);
        assert_eq!(write(&mut device, block, 0x54, 0, "np"), 2);
    }
}

#[test]
fn start_and_end_follow_the_granule() {
    for (guard, regions, granule, ..) in LISTED {
        let (block, low) = (Block::Risaf(guard), granule - 1);
        let mut device = Device::reset_state();
        for start in (0..regions).flat_map(|x| [0x44, 0x54, 0x64].map(|at| at + 0x40 * x)) {
            assert_eq!(word(&mut device, block, start), 0);
            assert_eq!(word(&mut device, block, start + 4), low);
            for data in [0, 0x1234_5678, 0xFFFF_FFFF, granule, low] {
                set(&mut device, block, start, data);
                set(&mut device, block, start + 4, data);
                assert_eq!(word(&mut device, block, start), data & !low);
                assert_eq!(word(&mut device, block, start + 4), data | low);
            }
        }
    }
}

#[test]
fn registers_past_the_count_do_not_exist() {
    for (guard, regions, ..) in LISTED {
        let block = Block::Risaf(guard);
        let last = 0x40 * regions + 0x2C;
        unchanged(|d| assert_eq!(read(d, block, last, "nu"), (0, 0)));
        for region in regions..12 {
            for place in (0..0x40).step_by(4) {
                let offset = 0x40 + 0x40 * region + place;
                unchanged(|d| assert_eq!(read(d, block, offset, "nu"), (3, 0)));
                unchanged(|d| assert_eq!(write(d, block, offset, 1, "nu"), 3));
            }
        }
        // Nor do the words stored for them govern.
        let mut device = Device::reset_state();
        let guard_words = &mut device.guard_mut(guard).unwrap().regions;
        for region in &mut guard_words[regions as usize..] {
            (region.cfgr, region.end, region.cidcfgr) = (1, u32::MAX, 0x00FF_00FF);
        }
        assert_eq!(asked(&device, guard, "r sp"), (0, 0));
    }
}

#[test]
fn windows() {
    for (guard, _, _, window, _) in LISTED {
        unchanged(|d| assert_eq!(memory(d, guard, window - 1, 3, "r sp"), (0, 0)));
        unchanged(|d| assert_eq!(memory(d, guard, window, 3, "r sp"), (6, 0)));
        let span = Span {
            start: 0,
            end: u64::from(window) - 1,
            rights: UNTOUCHED,
        };
        assert_eq!(Device::reset_state().map(guard), Ok(vec![span]));
    }
}

#[test]
fn a_right_is_for_all_cids_or_none() {
    let span = |start, end, rights| Span { start, end, rights };
    // Nonsecure, privileged only; CID 0 reads, the others write.
    let mut device = with_base(21, 0x0001_0000, 0x00FE_0001);
    let guard = Block::Risaf(21);
    set(&mut device, guard, 0x44, 0x0400);
    set(&mut device, guard, 0x48, 0x0BFF);
    // A for CID 0, B for nobody.
    set(&mut device, guard, 0x54, 0x0600);
    set(&mut device, guard, 0x58, 0x07FF);
    set(&mut device, guard, 0x50, 0x2001);
    set(&mut device, guard, 0x64, 0x0800);
    set(&mut device, guard, 0x68, 0x09FF);
    set(&mut device, guard, 0x60, 0x3071);
    assert_eq!(
        device.map(21).unwrap(),
        [
            span(0x0000, 0x03FF, UNTOUCHED),
            span(0x0400, 0x05FF, 0x0000_0000_00FF_0000),
            span(0x0600, 0x07FF, 0x0000_0000_FF00_FF00),
            span(0x0800, 0x09FF, 0),
            span(0x0A00, 0x0BFF, 0x0000_0000_00FF_0000),
            span(0x0C00, 0x3FFF, UNTOUCHED),
        ]
    );
}

#[test]
fn a_granule_of_four_bytes() {
    let mut device = with_base(15, 0, 0x0001_0001);
    set(&mut device, Block::Risaf(15), 0x44, 0x0000_0107);
    set(&mut device, Block::Risaf(15), 0x48, 0x0000_0108);
    let asked = [0x103, 0x104, 0x107, 0x108, 0x10B, 0x10C]
        .map(|offset| memory(&mut device, 15, offset, 6, "w nu"));
    assert_eq!(asked, [(1, 1), (0, 1), (0, 1), (0, 1), (0, 1), (1, 1)]);
}

#[test]
fn batches_and_lines_reach_them() {
    let list = [15, 21, 22, 23].map(|guard| access(guard, 0, 7, "w su"));
    let mut device = Device::reset_state();
    let (_, answers) = device.batch(&list, 4);
    assert!(answers.iter().all(|answer| answer.value() == 2));
    assert_eq!(device.iac.isr[4], 0x3A00_0000);
    let script = "mem 15 00000ffc 4 r 3 s p\nmem 23 00001000 4 r 3 s p\n\
                  reg risaf 22 00000048 r 00000000 n u\nreg risaf 23 00000100 r 00000000 n u\n\
                  dma 0 21 00000000 4 r\nmap 15\nmap 24\n";
    let expected = "ans 0 00000000\nans 6 00000000\nans 0 000001ff\nans 3 00000000\n\
                    ans 1 00000001\nguard 15\nspan 00000000 00000fff ffff000000000000\nend 1\n\
                    ans 4 00000000\n";
    let mut printed = Vec::new();
    run(script.replace(' ', "\t").as_bytes(), &mut printed).unwrap();
    assert_eq!(printed, expected.replace(' ', "\t").as_bytes());
}

#[test]
fn other_guards_are_as_they_were() {
    for guard in [1, 4, 9, 14] {
        let mut device = Device::reset_state();
        assert_eq!(memory(&mut device, guard, 0, 1, "r sp"), (0, 0));
        assert_eq!(memory(&mut device, guard, 0, 0, "r sp"), (1, 3));
        let asked = access(guard, 0, 7, "r sp");
        assert_eq!(device.apply(&Event::Memory(asked)).number(), 0);
        assert_eq!(word(&mut device, IAC, ISR4), 1 << (guard + 10));
        set(&mut device, Block::Risaf(guard), 0x5C, 0x04);
        assert_eq!(write(&mut device, Block::Risaf(guard), 0x54, 0, "sp"), 1);
    }
}
