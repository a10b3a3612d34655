//! Why a memory access was refused (Q-5): 1 security, 2 privilege, 3
//! compartment or direction.

mod common;

use common::{access, master, memory, peripheral, read, set, write};
use compare::model::{Answer, Block, Device, Event, Purpose, Reason};
use compare::text::run;

const GUARD: Block = Block::Risaf(2);

/// A guard 2 whose base regions 1 on cover 0 to FFF, each with its CFGR and
/// CIDCFGR.
fn with_bases(bases: &[(u32, u32)]) -> Device {
    let mut device = Device::reset_state();
    for (at, &(cfgr, cidcfgr)) in (0x40..).step_by(0x40).zip(bases) {
        set(&mut device, GUARD, at + 0xC, cidcfgr);
        set(&mut device, GUARD, at, cfgr | 1);
    }
    device
}

/// The same with CFGRs of the first region's subregions, 0 for none.
fn with_subregions(bases: &[(u32, u32)], subregions: [u32; 2]) -> Device {
    let mut device = with_bases(bases);
    for (at, cfgr) in [0x50, 0x60].into_iter().zip(subregions) {
        set(&mut device, GUARD, at, cfgr);
    }
    device
}

/// The reason at offset 0.
fn reason(device: &Device, cid: u32, kind: &str) -> u32 {
    let (number, value) = memory(&mut device.clone(), 2, 0, cid, kind);
    assert_eq!(number, 1);
    value
}

#[test]
fn rule_0_tests_in_order() {
    let device = Device::reset_state();
    for cid in 0..8 {
        for direction in ["r", "w"] {
            let reason = |rights| reason(&device, cid, &format!("{direction} {rights}"));
            assert_eq!([reason("nu"), reason("np"), reason("su")], [1, 1, 2]);
        }
    }
    for cid in [0, 2, 3, 4, 5, 6] {
        assert_eq!(reason(&device, cid, "r sp"), 3);
    }
}

#[test]
fn rule_1_tests_in_order() {
    // Secure, CID 2 privileged and reading only, CID 3 nothing at all.
    let device = with_bases(&[(0x000C_0100, 0x0000_0004)]);
    for cid in [2, 3, 7] {
        assert_eq!(reason(&device, cid, "w nu"), 1);
        assert_eq!(reason(&device, cid, "w np"), 1);
    }
    assert_eq!(reason(&device, 2, "w su"), 2);
    assert_eq!(reason(&device, 2, "r su"), 2);
    assert_eq!(reason(&device, 3, "r su"), 2);
    assert_eq!(reason(&device, 2, "w sp"), 3);
    assert_eq!(reason(&device, 3, "r sp"), 3);
    // CID 7 passes the last test, not the one before.
    assert_eq!(memory(&mut device.clone(), 2, 0, 7, "w su"), (0, 1));
    let device = with_bases(&[(0x0080_0100, 0)]);
    assert_eq!(reason(&device, 7, "w su"), 2);
    assert_eq!(memory(&mut device.clone(), 2, 0, 7, "w sp"), (0, 1));
}

#[test]
fn each_test_is_made_over_all_base_regions() {
    let open = 0x00FF_00FF;
    // The first fails the last test, the second the first.
    let device = with_bases(&[(0x000, 0), (0x100, open)]);
    assert_eq!(reason(&device, 2, "r nu"), 1);
    assert_eq!(reason(&device, 2, "r su"), 1);
    // The last test, then privilege; the other way round; and all three.
    let device = with_bases(&[(0x000, 0), (0x00FF_0000, open)]);
    assert_eq!(reason(&device, 2, "r nu"), 2);
    let device = with_bases(&[(0x00FF_0000, open), (0x000, 0)]);
    assert_eq!(reason(&device, 2, "r nu"), 2);
    let device = with_bases(&[(0x000, 0), (0x00FF_0000, open), (0x100, open)]);
    assert_eq!(reason(&device, 2, "r nu"), 1);
    // Each fails the last test for another direction.
    let device = with_bases(&[(0x000, 0x00FF_0000), (0x000, 0x0000_00FF)]);
    assert_eq!(reason(&device, 2, "r nu"), 3);
    assert_eq!(reason(&device, 2, "w nu"), 3);
}

#[test]
fn rule_2_tests_in_order() {
    // Secure and, for CID 2, privileged; CID 2 reads.
    let device = with_subregions(&[(0x0004_0100, 0)], [0x1321, 0]);
    for cid in 0..8 {
        assert_eq!(reason(&device, cid, "w nu"), 1);
        assert_eq!(reason(&device, cid, "r np"), 1);
        assert_eq!(reason(&device, cid, "r su"), 2);
        assert_eq!(reason(&device, cid, "w su"), 2);
        assert_eq!(reason(&device, cid, "w sp"), 3);
    }
    for cid in [0, 1, 3, 4, 5, 6] {
        assert_eq!(reason(&device, cid, "r sp"), 3);
    }
    for cid in [2, 7] {
        assert_eq!(memory(&mut device.clone(), 2, 0, cid, "r sp"), (0, 2));
    }
}

#[test]
fn rule_2_is_tested_over_all_that_count() {
    // One secure and one not: nonsecure. One private and one not: for all.
    let device = with_subregions(&[(0x00FF_0100, 0)], [0x1321, 0x2031]);
    for cid in 0..8 {
        assert_eq!(reason(&device, cid, "r sp"), 1);
        assert_eq!(reason(&device, cid, "r su"), 1);
    }
    // A opens reads to CID 2, B writes to CID 3.
    assert_eq!(memory(&mut device.clone(), 2, 0, 2, "r nu"), (0, 2));
    assert_eq!(memory(&mut device.clone(), 2, 0, 3, "w nu"), (0, 2));
    assert_eq!(reason(&device, 2, "w nu"), 3);
    assert_eq!(reason(&device, 3, "r nu"), 3);
    assert_eq!(reason(&device, 1, "r np"), 3);
    // Both private.
    let device = with_subregions(&[(0x00FF_0000, 0)], [0x1221, 0x2231]);
    assert_eq!(reason(&device, 1, "r nu"), 2);
    assert_eq!(reason(&device, 1, "r np"), 3);
}

#[test]
fn masters_batches_and_lines_show_it() {
    let mut device = Device::reset_state();
    assert_eq!(master(&mut device, 0, 2, 0, 4), (1, 1));
    for (attr, reason) in [(0x210, 1), (0x110, 2), (0x320, 3)] {
        set(&mut device, Block::Rifsc, 0xC10, attr);
        assert_eq!(master(&mut device, 0, 2, 0, 4), (1, reason));
    }
    let kinds = [(1, "r np"), (1, "w su"), (3, "r sp"), (1, "r sp")];
    let list = kinds.map(|(cid, kind)| access(2, 0, cid, kind));
    let (answer, answers) = device.batch(&list, 4);
    assert_eq!(answer, Answer::Done(0));
    let values = answers
        .iter()
        .map(|answer| (answer.number(), answer.value()));
    assert_eq!(values.collect::<Vec<_>>(), [(1, 1), (1, 2), (1, 3), (0, 0)]);
    let script = "mem 2 00000000 4 r 1 n p\nmem 2 00000000 4 w 1 s u\n\
                  mem 2 00000000 4 r 3 s p\ndma 1 2 00000000 4 w\n";
    let mut printed = Vec::new();
    run(script.replace(' ', "\t").as_bytes(), &mut printed).unwrap();
    let expected = [1, 2, 3, 1].map(|reason| format!("ans\t1\t0000000{reason}\n"));
    assert_eq!(printed, expected.concat().as_bytes());
}

#[test]
fn registers_and_peripherals_have_none() {
    let mut device = Device::reset_state();
    set(&mut device, Block::Rifsc, 0x010, 1);
    set(&mut device, Block::Rifsc, 0x030, 2);
    for letters in ["np", "su", "nu"] {
        assert_eq!(read(&mut device, GUARD, 0x08, letters), (1, 0));
        assert_eq!(read(&mut device, Block::Iac, 0, letters), (1, 0));
        // These look at the value themselves.
        assert_eq!(write(&mut device, Block::Rifsc, 0, 0, letters), 1);
        assert_eq!(write(&mut device, GUARD, 0x50, 0, letters), 1);
    }
    assert_eq!(peripheral(&mut device, 0, Purpose::Read, "nu"), 1);
    assert_eq!(peripheral(&mut device, 1, Purpose::Read, "nu"), 1);
}

#[test]
fn a_reason_changes_nothing_else() {
    for (cid, kind, reason) in [
        (2, "w nu", Reason::Security),
        (2, "w su", Reason::Privilege),
        (2, "w sp", Reason::Compartment),
    ] {
        let mut device = Device::reset_state();
        let asked = access(2, 0x40, cid, kind);
        let answer = device.apply(&Event::Memory(asked));
        assert_eq!(answer, Answer::Denied(reason));
        let guard = device.guard(2).unwrap();
        let secure_privileged = u32::from(asked.secure) << 5 | u32::from(asked.privileged) << 4;
        assert_eq!((guard.iasr, guard.iaddr), (2, 0x40));
        assert_eq!(guard.iaesr, 0x82 | secure_privileged);
        assert_eq!(device.iac.isr, [0, 0, 0, 0, 0x1000, 0]);
    }
}
