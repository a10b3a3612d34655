//! Arbitrary stored contents: unnamed bits, stored regions, reset.

mod common;

use common::random::Random;
use common::{set, word, write};
use compare::model::{Answer, Block, Device, Direction, Event, IISR, PPSR};

/// The state with every unnamed bit and unused region as in `other`.
fn with_unnamed_bits_of(mut state: Device, other: &Device) -> Device {
    let blend = |word: &mut u32, from: u32, named: u32| *word = *word & named | from & !named;
    blend(&mut state.rifsc.cr, other.rifsc.cr, 1);
    blend(&mut state.rifsc.rimc_cr, other.rifsc.rimc_cr, 0x701);
    for (attr, from) in state.rifsc.attr.iter_mut().zip(other.rifsc.attr) {
        blend(attr, from, 0x370);
    }
    for x in 0..6 {
        blend(&mut state.rifsc.seccfgr[x], other.rifsc.seccfgr[x], PPSR[x]);
        blend(
            &mut state.rifsc.privcfgr[x],
            other.rifsc.privcfgr[x],
            PPSR[x],
        );
        blend(
            &mut state.rifsc.rcfglockr[x],
            other.rifsc.rcfglockr[x],
            PPSR[x],
        );
        blend(&mut state.iac.ier[x], other.iac.ier[x], IISR[x]);
        blend(&mut state.iac.isr[x], other.iac.isr[x], IISR[x]);
    }
    blend(&mut state.iac.line, other.iac.line, 1);
    blend(&mut state.iac.count, other.iac.count, 0xFF);
    for (guard, from) in state.guards.iter_mut().zip(&other.guards) {
        blend(&mut guard.cr, from.cr, 1);
        blend(&mut guard.iasr, from.iasr, 3);
        blend(&mut guard.iaesr, from.iaesr, 0xB7);
        let own = guard.shape().regions;
        for (region, from) in guard.regions.iter_mut().zip(&from.regions) {
            blend(&mut region.cfgr, from.cfgr, 0x00FF_0101);
            blend(&mut region.cidcfgr, from.cidcfgr, 0x00FF_00FF);
            for (subregion, from) in region.subregions.iter_mut().zip(&from.subregions) {
                blend(&mut subregion.cfgr, from.cfgr, 0x3373);
                blend(&mut subregion.nest, from.nest, 0x74);
            }
        }
        guard.regions[own..].copy_from_slice(&from.regions[own..]);
    }
    state
}

#[test]
fn unnamed_bits_survive_and_do_not_matter() {
    let mut random = Random::new(1);
    for _ in 0..300 {
        let mut plain = random.device();
        for guard in &mut plain.guards {
            guard.cr &= !u32::from(random.flag());
        }
        let other = random.device();
        let mut mixed = with_unnamed_bits_of(plain.clone(), &other);
        for _ in 0..300 {
            let event = random.event();
            assert_eq!(plain.apply(&event), mixed.apply(&event), "{event:?}");
            assert_eq!(plain.interrupt_line(), mixed.interrupt_line());
        }
        assert_eq!(mixed, with_unnamed_bits_of(plain, &other));
    }
}

#[test]
fn refusals_and_reads_leave_what_they_must() {
    let mut random = Random::new(2);
    for _ in 0..100 {
        let mut device = random.device();
        for _ in 0..200 {
            let (event, before) = (random.event(), device.clone());
            let number = device.apply(&event).number();
            let reads = matches!(event, Event::Register(a) if a.direction == Direction::Read);
            if number > 1 || number == 0 && (reads || !matches!(event, Event::Register(_))) {
                assert_eq!(device, before, "{event:?}");
            }
        }
    }
}

#[test]
fn reset_clears_everything() {
    let mut device = Random::new(3).device();
    assert_eq!(device.apply(&Event::Reset), Answer::Done(0));
    assert_eq!(device, Device::reset_state());
    for guard in &device.guards {
        let end = match guard.shape().number {
            15 => 3,
            21..=23 => 511,
            _ => 4_095,
        };
        for region in &guard.regions {
            assert_eq!((region.cfgr, region.start, region.end), (0, 0, end));
            for subregion in &region.subregions {
                assert_eq!((subregion.cfgr, subregion.start), (0, 0));
                assert_eq!((subregion.end, subregion.nest), (end, 0));
            }
        }
    }
    assert_eq!(device.rifsc.rimc_cr, 0x710);
}

#[test]
fn reads_give_named_bits_only() {
    let mut device = Device::reset_state();
    device.rifsc.cr = 0xFFFF_FFFE;
    device.rifsc.rimc_cr = 0xFFFF_FFEE;
    device.rifsc.seccfgr[3] = 0xFFFF_FFFF;
    device.rifsc.attr[0] = 0xFFFF_FFFF;
    assert_eq!(word(&mut device, Block::Rifsc, 0x000), 0);
    assert_eq!(word(&mut device, Block::Rifsc, 0xC00), 0x710);
    assert_eq!(word(&mut device, Block::Rifsc, 0x01C), 0x5FF);
    assert_eq!(word(&mut device, Block::Rifsc, 0xC10), 0x370);
    set(&mut device, Block::Rifsc, 0xC00, 0x0000_0211);
    assert_eq!(device.rifsc.rimc_cr, 0xFFFF_FAEF);
    set(&mut device, Block::Rifsc, 0x000, 1);
    assert_eq!(device.rifsc.cr, 0xFFFF_FFFF);
}

#[test]
fn all_bits_locked_singly_still_answer_0() {
    let mut device = Device::reset_state();
    device.rifsc.rcfglockr[0] = 0xFFFF_FFFF;
    assert_eq!(
        write(&mut device, Block::Rifsc, 0x010, 0xFFFF_FFFF, "sp"),
        0
    );
    assert_eq!(device.rifsc.seccfgr[0], 0);
}

#[test]
fn faults_keep_unnamed_bits() {
    let mut device = Device::reset_state();
    device.guard_mut(2).unwrap().iaesr = 0xFFFF_FFFF;
    device.guard_mut(2).unwrap().iasr = 0xFFFF_FFFC;
    assert_eq!(common::memory(&mut device, 2, 0x123, 2, "w sp"), (1, 3));
    let guard = device.guard(2).unwrap();
    assert_eq!((guard.iaesr, guard.iaddr), (0xFFFF_FFFA, 0x123));
    assert_eq!(guard.iasr, 0xFFFF_FFFE);
}
