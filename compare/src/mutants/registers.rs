//! Wrong rules for registers and reset.

use super::written::{region_written, subregion_cfgr, write_of};
use super::{mutant, Mutant};
use crate::model::{Answer, Block, Device, Event, RegisterAccess, PPSR};

const CAEF: u32 = 1;
const SEC: u32 = 1 << 8;
const MCID: u32 = 7 << 4;

pub const MUTANTS: &[Mutant] = &[
    mutant(
        "odd-first",
        "a misaligned offset is found before no guard",
        odd_first,
    ),
    mutant("mcid7-taken", "ATTR takes an MCID of 7", mcid7_taken),
    mutant(
        "sec-by-nonsecure",
        "nonsecure writes change SEC",
        sec_by_nonsecure,
    ),
    mutant(
        "caef-forgotten",
        "a refused register access sets no CAEF",
        caef_forgotten,
    ),
    mutant(
        "unnamed-cleared",
        "a CFGR write clears unnamed bits",
        unnamed_cleared,
    ),
    mutant("start-whole", "START keeps its low bits", start_whole),
    mutant(
        "absent-taken",
        "SECCFGR takes bits that are not present",
        absent_taken,
    ),
    mutant("reset-forgets", "reset leaves the flags", reset_forgets),
    mutant(
        "past-count",
        "stored regions past a guard's count have registers",
        past_count,
    ),
];

fn odd_first(device: &mut Device, event: &Event) -> Answer {
    match event {
        Event::Register(access) if !access.offset.is_multiple_of(4) => Answer::Misaligned,
        _ => device.apply(event),
    }
}

/// The index and data of a write to one of RIFSC's registers in a row.
fn rifsc_write(event: &Event, first: u32, count: u32) -> Option<(usize, u32)> {
    let access = write_of(event)?;
    let inside = (first..first + 4 * count).contains(&access.offset);
    (inside && access.block == Block::Rifsc)
        .then(|| ((access.offset - first) as usize / 4, access.data))
}

fn mcid7_taken(device: &mut Device, event: &Event) -> Answer {
    let answer = device.apply(event);
    if let (Some((x, data)), Answer::Done(_)) = (rifsc_write(event, 0xC10, 13), answer) {
        if data & MCID == MCID {
            device.rifsc.attr[x] |= MCID;
        }
    }
    answer
}

fn sec_by_nonsecure(device: &mut Device, event: &Event) -> Answer {
    let answer = device.apply(event);
    if answer == Answer::Done(0) {
        if let Some((subregion, data)) = subregion_cfgr(device, event) {
            subregion.cfgr = subregion.cfgr & !SEC | data & SEC;
        }
    }
    answer
}

fn caef_forgotten(device: &mut Device, event: &Event) -> Answer {
    let kept = device.guards.clone().map(|guard| guard.iasr & CAEF);
    let answer = device.apply(event);
    if let (Event::Register(_), Answer::Refused) = (event, answer) {
        for (guard, kept) in device.guards.iter_mut().zip(kept) {
            guard.iasr = guard.iasr & !CAEF | kept;
        }
    }
    answer
}

fn unnamed_cleared(device: &mut Device, event: &Event) -> Answer {
    let answer = device.apply(event);
    if let (Some((guard, region, 0x0)), Answer::Done(_)) = (region_written(event), answer) {
        let guard = device.guard_mut(guard).expect("it was written");
        guard.regions[region].cfgr &= 0x00FF_0101;
    }
    answer
}

fn start_whole(device: &mut Device, event: &Event) -> Answer {
    let answer = device.apply(event);
    let data = write_of(event).map_or(0, |access| access.data);
    if let (Some((guard, region, 0x4)), Answer::Done(_)) = (region_written(event), answer) {
        let guard = device.guard_mut(guard).expect("it was written");
        guard.regions[region].start = data;
    }
    answer
}

fn absent_taken(device: &mut Device, event: &Event) -> Answer {
    let answer = device.apply(event);
    if let (Some((x, data)), Answer::Done(_)) = (rifsc_write(event, 0x010, 6), answer) {
        let word = &mut device.rifsc.seccfgr[x];
        *word = *word & PPSR[x] | data & !PPSR[x];
    }
    answer
}

fn reset_forgets(device: &mut Device, event: &Event) -> Answer {
    let flags = device.iac.isr;
    let answer = device.apply(event);
    if *event == Event::Reset {
        device.iac.isr = flags;
    }
    answer
}

fn past_count(device: &mut Device, event: &Event) -> Answer {
    let answer = device.apply(event);
    if let (Event::Register(access), Answer::NoRegister) = (event, answer) {
        if let Block::Risaf(number) = access.block {
            // Guard 4 has all of them.
            let mut trial = device.clone();
            let regions = device.guard(number).map(|guard| guard.regions);
            if let (Some(guard), Some(regions)) = (trial.guard_mut(4), regions) {
                guard.regions = regions;
            }
            let block = Block::Risaf(4);
            return trial.apply(&Event::Register(RegisterAccess { block, ..*access }));
        }
    }
    answer
}
