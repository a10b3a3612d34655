//! Wrong rules for locks.

use super::written::{subregion_cfgr, subregion_written, write_of};
use super::{mutant, Mutant};
use crate::model::{Answer, Block, Device, Event, RegisterAccess};

const GLOCK: u32 = 1;
const RLOCK: u32 = 2;

pub const MUTANTS: &[Mutant] = &[
    mutant(
        "rifsc-unlocked",
        "RIFSC's GLOCK locks nothing",
        rifsc_unlocked,
    ),
    mutant(
        "guard-unlocked",
        "a guard's GLOCK locks nothing",
        guard_unlocked,
    ),
    mutant(
        "glock-delegated",
        "GLOCK stops subregion writes",
        glock_delegated,
    ),
    mutant("rlock-early", "RLOCK can be set without GLOCK", rlock_early),
    mutant(
        "lock-first",
        "a lock is found before want of rights",
        lock_first,
    ),
];

fn rifsc_unlocked(device: &mut Device, event: &Event) -> Answer {
    if write_of(event).is_none() {
        return device.apply(event);
    }
    let kept = device.rifsc.cr & GLOCK;
    device.rifsc.cr &= !GLOCK;
    let answer = device.apply(event);
    device.rifsc.cr |= kept;
    answer
}

/// The guard whose base registers an event writes to.
fn base_of(event: &Event) -> Option<u32> {
    match write_of(event)?.block {
        Block::Risaf(guard) if subregion_written(event).is_none() => Some(guard),
        _ => None,
    }
}

fn guard_unlocked(device: &mut Device, event: &Event) -> Answer {
    let number = base_of(event).unwrap_or(0);
    let Some(guard) = device.guard_mut(number) else {
        return device.apply(event);
    };
    let kept = guard.cr & GLOCK;
    guard.cr &= !GLOCK;
    let answer = device.apply(event);
    if let Some(guard) = device.guard_mut(number) {
        guard.cr |= kept;
    }
    answer
}

fn glock_delegated(device: &mut Device, event: &Event) -> Answer {
    let guard = subregion_written(event).and_then(|place| device.guard(place.0));
    let locked = guard.is_some_and(|guard| guard.cr & GLOCK != 0);
    if locked && device.clone().apply(event) == Answer::Done(0) {
        return Answer::Locked;
    }
    device.apply(event)
}

fn rlock_early(device: &mut Device, event: &Event) -> Answer {
    let answer = device.apply(event);
    if answer == Answer::Done(0) {
        if let Some((subregion, data)) = subregion_cfgr(device, event) {
            subregion.cfgr |= data & RLOCK;
        }
    }
    answer
}

fn lock_first(device: &mut Device, event: &Event) -> Answer {
    if let Some(access) = write_of(event) {
        let with_rights = RegisterAccess {
            secure: true,
            privileged: true,
            ..*access
        };
        let answer = device.clone().apply(&Event::Register(with_rights));
        if answer == Answer::Locked {
            return answer;
        }
    }
    device.apply(event)
}
