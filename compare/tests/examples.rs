//! The marked examples W1 to W14 and the wrong readings.

mod common;

use common::{memory, read, set, word, write};
use compare::model::{Block, Device, Purpose, Span};

const RIFSC: Block = Block::Rifsc;
const IAC: Block = Block::Iac;
const GUARD: Block = Block::Risaf(2);
const ISR4: u32 = 0x90;
const IAESR: u32 = 0x20;
const DEFAULT_RIGHTS: u64 = 0x8282_0000_0000_0000;

/// The state after W11's writes.
fn w11() -> Device {
    let mut device = Device::reset_state();
    set(&mut device, GUARD, 0x44, 0x0001_0000);
    set(&mut device, GUARD, 0x48, 0x0001_FFFF);
    set(&mut device, GUARD, 0x4C, 0x0004_0006);
    set(&mut device, GUARD, 0x40, 0x0000_0001);
    device
}

#[test]
fn w1_default_rule_grants() {
    let mut device = Device::reset_state();
    assert_eq!(memory(&mut device, 2, 0, 1, "r sp"), (0, 0));
    assert_eq!(device, Device::reset_state());
}

#[test]
fn w2_w3_first_fault_is_kept() {
    let mut device = Device::reset_state();
    assert_eq!(memory(&mut device, 2, 0, 2, "r sp"), (1, 3));
    assert_eq!(word(&mut device, IAC, ISR4), 0x0000_1000);
    assert_eq!(word(&mut device, GUARD, IAESR), 0x0000_0032);
    assert_eq!(memory(&mut device, 2, 0x40, 3, "w np"), (1, 1));
    assert_eq!(word(&mut device, GUARD, IAESR), 0x0000_0032);
    assert_eq!(word(&mut device, GUARD, 0x24), 0);
    assert_eq!(word(&mut device, GUARD, 0x08), 2);
    set(&mut device, GUARD, 0x0C, 2);
    assert_eq!(word(&mut device, GUARD, 0x08), 0);
    assert_eq!(memory(&mut device, 2, 0x40, 3, "w np"), (1, 1));
    assert_eq!(word(&mut device, GUARD, IAESR), 0x0000_0093);
    assert_eq!(word(&mut device, GUARD, 0x24), 0x40);
}

#[test]
fn w4_cid_7() {
    let mut device = Device::reset_state();
    assert_eq!(memory(&mut device, 2, 0, 7, "r sp"), (0, 0));
    assert_eq!(memory(&mut device, 2, 0, 7, "r np"), (1, 1));
}

#[test]
fn w5_attr_takes_no_mcid_7() {
    let mut device = Device::reset_state();
    set(&mut device, RIFSC, 0xC14, 0x0000_0370);
    assert_eq!(word(&mut device, RIFSC, 0xC14), 0x0000_0300);
}

#[test]
fn w6_rimc_cr_locks_itself() {
    let mut device = Device::reset_state();
    assert_eq!(word(&mut device, RIFSC, 0xC00), 0x0000_0710);
    set(&mut device, RIFSC, 0xC00, 0x0000_0101);
    assert_eq!(word(&mut device, RIFSC, 0xC00), 0x0000_0111);
    assert_eq!(write(&mut device, RIFSC, 0xC00, 0, "sp"), 2);
    assert_eq!(write(&mut device, RIFSC, 0xC40, 0, "sp"), 2);
    assert_eq!(word(&mut device, RIFSC, 0xC00), 0x0000_0111);
}

#[test]
fn w7_w8_w9_single_locks() {
    let mut device = Device::reset_state();
    set(&mut device, RIFSC, 0x010, 0xFFFF_FFFF);
    assert_eq!(word(&mut device, RIFSC, 0x010), 0xFFFF_FF7F);
    set(&mut device, RIFSC, 0x050, 1);
    set(&mut device, RIFSC, 0x010, 0);
    assert_eq!(word(&mut device, RIFSC, 0x010), 0x0000_0001);
    assert_eq!(write(&mut device, RIFSC, 0x030, 3, "np"), 0);
    assert_eq!(word(&mut device, RIFSC, 0x030), 0x0000_0002);
    set(&mut device, RIFSC, 0x050, 0);
    assert_eq!(word(&mut device, RIFSC, 0x050), 1);
}

#[test]
fn priv_of_a_secure_peripheral_takes_secure_writes_only() {
    let mut device = Device::reset_state();
    set(&mut device, RIFSC, 0x010, 1);
    assert_eq!(write(&mut device, RIFSC, 0x030, 3, "np"), 0);
    assert_eq!(word(&mut device, RIFSC, 0x030), 2);
    set(&mut device, RIFSC, 0x030, 1);
    assert_eq!(word(&mut device, RIFSC, 0x030), 1);
}

#[test]
fn w10_refused_iac_read_raises_138() {
    let mut device = Device::reset_state();
    assert_eq!(read(&mut device, IAC, 0x000, "np"), (1, 0));
    assert_eq!(word(&mut device, IAC, ISR4), 0x0000_0400);
}

#[test]
fn w11_base_region() {
    let mut device = w11();
    assert_eq!(memory(&mut device, 2, 0x10000, 2, "r nu"), (0, 1));
    assert_eq!(memory(&mut device, 2, 0x1FFFF, 2, "r nu"), (0, 1));
    assert_eq!(memory(&mut device, 2, 0x0FFFF, 2, "r nu"), (1, 1));
    assert_eq!(memory(&mut device, 2, 0x20000, 2, "r nu"), (1, 1));
}

#[test]
fn w12_subregion() {
    let mut device = w11();
    set(&mut device, GUARD, 0x54, 0x0001_0000);
    set(&mut device, GUARD, 0x58, 0x0001_0FFF);
    set(&mut device, GUARD, 0x50, 0x0000_1121);
    assert_eq!(memory(&mut device, 2, 0x10000, 2, "r nu"), (0, 2));
    assert_eq!(memory(&mut device, 2, 0x10000, 2, "r su"), (1, 1));
    assert_eq!(memory(&mut device, 2, 0x10000, 1, "r nu"), (1, 3));
    assert_eq!(memory(&mut device, 2, 0x10000, 2, "w nu"), (1, 3));
    assert_eq!(memory(&mut device, 2, 0x11000, 2, "r nu"), (0, 1));
}

#[test]
fn w13_map() {
    let span = |start, end, rights| Span { start, end, rights };
    let before = w11();
    assert_eq!(
        before.map(2).unwrap(),
        [
            span(0, 0xFFFF, DEFAULT_RIGHTS),
            span(0x10000, 0x1FFFF, 0x0000_0000_8486_8486),
            span(0x20000, 0xFFFFF, DEFAULT_RIGHTS),
        ]
    );
    let whole = before.map(4).unwrap();
    assert_eq!(whole, [span(0, 0xFFFF_FFFF, DEFAULT_RIGHTS)]);
}

#[test]
fn w14_granule_bits() {
    let mut device = Device::reset_state();
    for start in [0x44, 0x54, 0x64] {
        set(&mut device, GUARD, start, 0x0001_0FFF);
        set(&mut device, GUARD, start + 4, 0x0001_0000);
        assert_eq!(word(&mut device, GUARD, start), 0x0001_0000);
        assert_eq!(word(&mut device, GUARD, start + 4), 0x0001_0FFF);
    }
}

#[test]
fn base_region_with_sec_0_shuts_secure_asking_out() {
    let mut device = w11();
    assert_eq!(memory(&mut device, 2, 0x10000, 2, "r sp"), (1, 1));
    assert_eq!(common::peripheral(&mut device, 0, Purpose::Read, "sp"), 0);
}

#[test]
fn glock_does_not_stop_a_delegated_write() {
    let mut device = Device::reset_state();
    set(&mut device, GUARD, 0x5C, 0x0000_0014);
    set(&mut device, GUARD, 0x000, 1);
    assert_eq!(write(&mut device, GUARD, 0x50, 0x0000_3371, "np"), 0);
    assert_eq!(word(&mut device, GUARD, 0x50), 0x0000_3271);
    assert_eq!(write(&mut device, GUARD, 0x54, 0x0000_1000, "np"), 0);
    assert_eq!(word(&mut device, GUARD, 0x54), 0x0000_1000);
    assert_eq!(write(&mut device, GUARD, 0x5C, 0, "sp"), 2);
}

#[test]
fn subregion_does_not_govern_outside_its_base() {
    let mut device = w11();
    set(&mut device, GUARD, 0x54, 0x0000_0000);
    set(&mut device, GUARD, 0x58, 0x0001_0FFF);
    set(&mut device, GUARD, 0x50, 0x0000_1121);
    assert_eq!(memory(&mut device, 2, 0xFFFF, 2, "r nu"), (1, 1));
    assert_eq!(memory(&mut device, 2, 0xFFFF, 1, "r sp"), (0, 0));
    assert_eq!(memory(&mut device, 2, 0x10000, 2, "r nu"), (0, 2));
}
