//! Wrong rules for accesses to memory and peripherals.

use super::{mutant, Mutant};
use crate::model::{shape_of, Answer, Device, Event, MemoryAccess, Region, Rule, IISR};

const IAEF: u32 = 2;

pub const MUTANTS: &[Mutant] = &[
    mutant("rule1-any", "one granting base region is enough", rule1_any),
    mutant("end-exclusive", "END is not covered", end_exclusive),
    mutant(
        "one-way-sec",
        "a SEC 0 base region admits secure too",
        one_way_sec,
    ),
    mutant(
        "privc-ignored",
        "a base region's PRIVC is ignored",
        privc_ignored,
    ),
    mutant(
        "stray-subregion",
        "subregions govern outside their base",
        stray_subregion,
    ),
    mutant("cid7-default", "rule 0 does not admit CID 7", cid7_default),
    mutant(
        "iaesr-overwritten",
        "a later fault overwrites IAESR",
        iaesr_overwritten,
    ),
    mutant(
        "judged-at-end",
        "an access is judged at its last byte",
        judged_at_end,
    ),
    mutant(
        "next-flag",
        "a guard raises its neighbour's flag",
        next_flag,
    ),
    mutant(
        "priv-ignored",
        "a peripheral's PRIV is ignored",
        priv_ignored,
    ),
    mutant(
        "fetch-flagged",
        "a fetch raises the peripheral's flag",
        fetch_flagged,
    ),
];

/// The memory access that an event is, also by a master.
pub fn memory_access(device: &Device, event: &Event) -> Option<MemoryAccess> {
    match event {
        Event::Memory(access) => Some(*access),
        Event::Master(access) => {
            let carried = device.rifsc.master(access.master)?;
            Some(MemoryAccess {
                guard: access.guard,
                offset: access.offset,
                width: access.width,
                direction: access.direction,
                cid: carried.cid,
                secure: carried.secure,
                privileged: carried.privileged,
            })
        }
        _ => None,
    }
}

/// The event with the regions changed while it lasts.
fn with_regions(device: &mut Device, event: &Event, change: impl Fn(&mut Region, u32)) -> Answer {
    let Some(access) = memory_access(device, event) else {
        return device.apply(event);
    };
    let kept = device.guards.clone().map(|guard| guard.regions);
    for guard in &mut device.guards {
        for region in &mut guard.regions {
            change(region, access.offset);
        }
    }
    let answer = device.apply(event);
    for (guard, regions) in device.guards.iter_mut().zip(kept) {
        guard.regions = regions;
    }
    answer
}

fn rule1_any(device: &mut Device, event: &Event) -> Answer {
    if let Some(access) = memory_access(device, event) {
        let regions = shape_of(access.guard).map_or(0, |shape| shape.regions);
        for alone in 0..regions {
            let mut trial = device.clone();
            let guard = trial.guard_mut(access.guard).expect("it has regions");
            for (index, region) in guard.regions.iter_mut().enumerate() {
                region.cfgr &= !u32::from(index != alone);
            }
            if trial.apply(event) == Answer::Granted(Rule::Base) {
                return Answer::Granted(Rule::Base);
            }
        }
    }
    device.apply(event)
}

fn end_exclusive(device: &mut Device, event: &Event) -> Answer {
    with_regions(device, event, |region, offset| {
        if region.end == offset {
            region.start = u32::MAX;
            region.end = 0;
        }
    })
}

fn one_way_sec(device: &mut Device, event: &Event) -> Answer {
    if let Some(access) = memory_access(device, event) {
        let nonsecure = MemoryAccess {
            secure: false,
            ..access
        };
        let answer = device.clone().apply(&Event::Memory(nonsecure));
        if answer == Answer::Granted(Rule::Base) {
            return answer;
        }
    }
    device.apply(event)
}

fn privc_ignored(device: &mut Device, event: &Event) -> Answer {
    with_regions(device, event, |region, _| region.cfgr &= 0x0000_FFFF)
}

fn stray_subregion(device: &mut Device, event: &Event) -> Answer {
    with_regions(device, event, |region, offset| {
        let covers = |start, end| start <= offset && offset <= end;
        let subregions = region.subregions.iter();
        let mut stray = subregions.filter(|s| s.cfgr & 1 == 1 && covers(s.start, s.end));
        if stray.next().is_some() {
            (region.start, region.end) = (0, u32::MAX);
        }
    })
}

fn cid7_default(device: &mut Device, event: &Event) -> Answer {
    if let Some(access) = memory_access(device, event) {
        let answer = device.clone().apply(event);
        if access.cid == 7 && answer == Answer::Granted(Rule::Default) {
            return device.apply(&Event::Memory(MemoryAccess { cid: 0, ..access }));
        }
    }
    device.apply(event)
}

fn iaesr_overwritten(device: &mut Device, event: &Event) -> Answer {
    if memory_access(device, event).is_none() {
        return device.apply(event);
    }
    let kept = device.guards.clone().map(|guard| guard.iasr & IAEF);
    for guard in &mut device.guards {
        guard.iasr &= !IAEF;
    }
    let answer = device.apply(event);
    for (guard, kept) in device.guards.iter_mut().zip(kept) {
        guard.iasr |= kept;
    }
    answer
}

fn judged_at_end(device: &mut Device, event: &Event) -> Answer {
    match event {
        Event::Memory(access) if matches!(access.width, 2 | 4) => {
            let fits = access.offset.is_multiple_of(access.width);
            let last = access.offset.wrapping_add(access.width - 1);
            let byte = MemoryAccess {
                offset: last,
                width: 1,
                ..*access
            };
            device.apply(&if fits { Event::Memory(byte) } else { *event })
        }
        _ => device.apply(event),
    }
}

fn next_flag(device: &mut Device, event: &Event) -> Answer {
    let before = device.iac.isr[4];
    let answer = device.apply(event);
    if let (Event::Memory(access), Answer::Denied(_)) = (event, answer) {
        let flag = shape_of(access.guard).map_or(0, |shape| shape.flag);
        device.iac.isr[4] = before | (1 << (flag + 1 - 128)) & IISR[4];
    }
    answer
}

fn priv_ignored(device: &mut Device, event: &Event) -> Answer {
    if !matches!(event, Event::Peripheral(_)) {
        return device.apply(event);
    }
    let kept = std::mem::take(&mut device.rifsc.privcfgr);
    let answer = device.apply(event);
    device.rifsc.privcfgr = kept;
    answer
}

fn fetch_flagged(device: &mut Device, event: &Event) -> Answer {
    let answer = device.apply(event);
    if let (Event::Peripheral(access), Answer::Fetch) = (event, answer) {
        let (word, place) = (access.peripheral as usize / 32, access.peripheral % 32);
        device.iac.isr[word] |= (1 << place) & IISR[word];
    }
    answer
}
