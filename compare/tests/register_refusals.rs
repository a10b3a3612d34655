//! Each refusal number of a register access, and their order.

mod common;

use common::{read, set, unchanged, word, write, NO_GUARDS};
use compare::model::{Block, Device, PPSR};

const RIFSC: Block = Block::Rifsc;
const IAC: Block = Block::Iac;
const GUARD: Block = Block::Risaf(2);
const GUARD_FLAG: u32 = 0x0000_1000;
const RIFSC_FLAG: u32 = 0x4000_0000;

/// ISR4 and guard 2's IASR after one event from reset.
fn flags(act: impl FnOnce(&mut Device)) -> (u32, u32) {
    let mut device = Device::reset_state();
    act(&mut device);
    (word(&mut device, IAC, 0x90), word(&mut device, GUARD, 0x08))
}

#[test]
fn no_such_block_comes_before_misaligned() {
    for number in NO_GUARDS {
        unchanged(|d| assert_eq!(read(d, Block::Risaf(number), 1, "sp"), (4, 0)));
        unchanged(|d| assert_eq!(write(d, Block::Risaf(number), 0, 0, "nu"), 4));
    }
}

#[test]
fn misaligned_comes_before_unknown_offset_and_rights() {
    for block in [RIFSC, IAC, GUARD] {
        for offset in [1, 2, 3, 0x2003, 0xFFFF_FFFF] {
            unchanged(|d| assert_eq!(write(d, block, offset, 1, "nu"), 5));
            unchanged(|d| assert_eq!(read(d, block, offset, "nu"), (5, 0)));
        }
    }
}

#[test]
fn unknown_offset_comes_before_rights() {
    let rifsc = [0x004, 0x028, 0x048, 0x068, 0xC04, 0xC44, 0xFAC, 0xFC8];
    let iac = [0x018, 0x07C, 0x098, 0x118, 0x360, 0x368, 0x384];
    let guard = [0x004, 0x010, 0x028, 0x03C, 0x070, 0x07C, 0x200, 0xFFFF_FFFC];
    let all = rifsc.map(|o| (RIFSC, o)).into_iter();
    let all = all.chain(iac.map(|o| (IAC, o)));
    for (block, offset) in all.chain(guard.map(|o| (GUARD, o))) {
        unchanged(|d| assert_eq!(write(d, block, offset, 1, "nu"), 3));
        unchanged(|d| assert_eq!(read(d, block, offset, "nu"), (3, 0)));
    }
    let eleven = Block::Risaf(4);
    unchanged(|d| assert_eq!(read(d, eleven, 0x2C0, "nu"), (0, 0)));
    unchanged(|d| assert_eq!(read(d, eleven, 0x300, "nu"), (3, 0)));
}

#[test]
fn rights_of_rifsc_registers() {
    for letters in ["np", "su", "nu"] {
        for offset in [0x000, 0x010, 0x064, 0xC00, 0xC40, 0xFB0] {
            let seen = flags(|d| assert_eq!(write(d, RIFSC, offset, 1, letters), 1));
            assert_eq!(seen, (RIFSC_FLAG, 0));
            unchanged(|d| assert_eq!(read(d, RIFSC, offset, letters).0, 0));
        }
    }
    let seen = flags(|d| assert_eq!(write(d, RIFSC, 0x030, 1, "su"), 1));
    assert_eq!(seen, (RIFSC_FLAG, 0));
    assert_eq!(
        flags(|d| assert_eq!(write(d, RIFSC, 0x030, 1, "np"), 0)).0,
        0
    );
    for (x, constant) in PPSR.into_iter().enumerate() {
        unchanged(|d| assert_eq!(read(d, RIFSC, 0xFB0 + 4 * x as u32, "nu"), (0, constant)));
    }
    unchanged(|d| assert_eq!(write(d, RIFSC, 0xFB0, 0, "sp"), 3));
}

#[test]
fn rights_of_iac_registers() {
    for offset in [0x000, 0x014, 0x080, 0x094, 0x100, 0x114] {
        for letters in ["np", "su", "nu"] {
            assert_eq!(
                flags(|d| assert_eq!(read(d, IAC, offset, letters), (1, 0))).0,
                0x400
            );
            assert_eq!(
                flags(|d| assert_eq!(write(d, IAC, offset, 1, letters), 1)).0,
                0x400
            );
        }
    }
    unchanged(|d| assert_eq!(write(d, IAC, 0x080, 1, "sp"), 3));
    unchanged(|d| assert_eq!(read(d, IAC, 0x100, "sp"), (3, 0)));
    for letters in ["sp", "np", "su", "nu"] {
        unchanged(|d| assert_eq!(write(d, IAC, 0x36C, 1, letters), 3));
        unchanged(|d| assert_eq!(read(d, IAC, 0x374, letters), (0, 0x77DF_F03B)));
    }
}

#[test]
fn rights_of_guard_registers() {
    for letters in ["np", "su", "nu"] {
        for offset in [0x008, 0x00C, 0x020, 0x024] {
            let seen = flags(|d| assert_eq!(read(d, GUARD, offset, letters), (1, 0)));
            assert_eq!(seen, (GUARD_FLAG, 1));
        }
        let all = [
            0x000, 0x008, 0x00C, 0x020, 0x024, 0x040, 0x044, 0x048, 0x04C,
        ];
        let subregions = [0x050, 0x054, 0x058, 0x05C, 0x060, 0x064, 0x068, 0x06C];
        for offset in all.into_iter().chain(subregions) {
            let seen = flags(|d| assert_eq!(write(d, GUARD, offset, 1, letters), 1));
            assert_eq!(seen, (GUARD_FLAG, 1));
        }
        unchanged(|d| assert_eq!(read(d, GUARD, 0x048, letters), (0, 0xFFF)));
        unchanged(|d| assert_eq!(read(d, GUARD, 0x06C, letters), (0, 0)));
    }
    for offset in [0x008, 0x020, 0x024] {
        unchanged(|d| assert_eq!(write(d, GUARD, offset, 1, "sp"), 3));
    }
    unchanged(|d| assert_eq!(read(d, GUARD, 0x00C, "sp"), (3, 0)));
}

#[test]
fn delegation_decides_the_rights_of_a_subregion() {
    let mut device = Device::reset_state();
    set(&mut device, GUARD, 0x05C, 0x24);
    assert_eq!(write(&mut device, GUARD, 0x054, 0, "sp"), 1);
    set(&mut device, GUARD, 0x05C, 0x14);
    set(&mut device, GUARD, 0x040, 0x100);
    assert_eq!(write(&mut device, GUARD, 0x054, 0, "np"), 1);
    assert_eq!(write(&mut device, GUARD, 0x054, 0, "sp"), 0);
    assert_eq!(write(&mut device, GUARD, 0x064, 0, "sp"), 0);
    assert_eq!(write(&mut device, GUARD, 0x054, 0, "su"), 1);
    set(&mut device, GUARD, 0x040, 0);
    assert_eq!(write(&mut device, GUARD, 0x054, 0, "np"), 0);
    assert_eq!(write(&mut device, GUARD, 0x064, 0, "np"), 1);
}

#[test]
fn registers_locked_whole() {
    let mut device = Device::reset_state();
    set(&mut device, RIFSC, 0x000, 1);
    for offset in [0x000, 0x010, 0x030, 0x050, 0x064] {
        assert_eq!(write(&mut device, RIFSC, offset, 0xFFFF_FFFF, "sp"), 2);
        assert_eq!(write(&mut device, RIFSC, offset, 0xFFFF_FFFF, "nu"), 1);
    }
    assert_eq!(write(&mut device, RIFSC, 0xFB0, 0, "sp"), 3);
    set(&mut device, RIFSC, 0xC10, 0x300);
    set(&mut device, GUARD, 0x000, 1);
    for offset in [0x000, 0x040, 0x044, 0x048, 0x04C, 0x05C, 0x06C] {
        assert_eq!(write(&mut device, GUARD, offset, 0xFFFF_FFFF, "sp"), 2);
    }
    assert_eq!(write(&mut device, GUARD, 0x008, 0, "sp"), 3);
    set(&mut device, GUARD, 0x00C, 3);
    set(&mut device, GUARD, 0x050, 0x2);
    assert_eq!(word(&mut device, GUARD, 0x050), 0x2);
    for offset in [0x050, 0x054, 0x058] {
        assert_eq!(write(&mut device, GUARD, offset, 0, "sp"), 2);
        set(&mut device, GUARD, offset + 0x10, 0);
    }
}

#[test]
fn rlock_needs_glock() {
    let mut device = Device::reset_state();
    set(&mut device, GUARD, 0x050, 0xFFFF_FFFF);
    assert_eq!(word(&mut device, GUARD, 0x050), 0x0000_3371);
    device.guard_mut(2).unwrap().regions[0].subregions[0].cfgr = 2;
    assert_eq!(write(&mut device, GUARD, 0x050, 0, "sp"), 2);
}
