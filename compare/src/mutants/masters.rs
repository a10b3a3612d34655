//! Wrong rules for what a master carries.

use super::memory::memory_access;
use super::{mutant, Mutant};
use crate::model::{Answer, Device, Event, MemoryAccess, GUARDING};

const MSEC: u32 = 1 << 8;
const IAEF: u32 = 1 << 1;
const SECURE: u32 = 1 << 5;

pub const MUTANTS: &[Mutant] = &[
    mutant("msec-alone", "no SEC bit guards a master", msec_alone),
    mutant("master0-guarded", "106 guards master 0", master0_guarded),
    mutant("next-guarding", "103 guards master 11", next_guarding),
    mutant("msec-or-sec", "MSEC or SEC is enough", msec_or_sec),
    mutant("msec-recorded", "IAESR gets MSEC as stored", msec_recorded),
];

fn msec(device: &Device, master: u32) -> bool {
    device.rifsc.attr[master as usize] & MSEC != 0
}

fn sec(device: &Device, peripheral: u32) -> bool {
    device.rifsc.seccfgr[peripheral as usize / 32] >> (peripheral % 32) & 1 == 1
}

/// A master's access with another secure flag, where there is one.
fn carrying(
    device: &mut Device,
    event: &Event,
    other: impl Fn(&Device, u32) -> Option<bool>,
) -> Answer {
    if let (Event::Master(asked), Some(access)) = (event, memory_access(device, event)) {
        if let Some(secure) = other(device, asked.master) {
            return device.apply(&Event::Memory(MemoryAccess { secure, ..access }));
        }
    }
    device.apply(event)
}

fn msec_alone(device: &mut Device, event: &Event) -> Answer {
    carrying(device, event, |device, master| Some(msec(device, master)))
}

fn master0_guarded(device: &mut Device, event: &Event) -> Answer {
    carrying(device, event, |device, master| {
        (master == 0).then(|| msec(device, 0) && sec(device, 106))
    })
}

fn next_guarding(device: &mut Device, event: &Event) -> Answer {
    carrying(device, event, |device, master| {
        (master == 11).then(|| msec(device, 11) && sec(device, 103))
    })
}

fn msec_or_sec(device: &mut Device, event: &Event) -> Answer {
    carrying(device, event, |device, master| {
        let guarding = GUARDING[master as usize]?;
        Some(msec(device, master) || sec(device, guarding))
    })
}

fn msec_recorded(device: &mut Device, event: &Event) -> Answer {
    let first = device.guards.clone().map(|guard| guard.iasr & IAEF == 0);
    let answer = device.apply(event);
    if let (Event::Master(asked), Answer::Denied(_)) = (event, answer) {
        let stored = u32::from(msec(device, asked.master)) * SECURE;
        for (guard, first) in device.guards.iter_mut().zip(first) {
            if first && guard.iasr & IAEF != 0 {
                guard.iaesr = guard.iaesr & !SECURE | stored;
            }
        }
    }
    answer
}
