//! Wrong reasons for the refusal of a memory access.

use super::memory::memory_access;
use super::{mutant, Mutant};
use crate::model::{Answer, Device, Event, Guard, MemoryAccess, Reason, Region};

const SEC: u32 = 1 << 8;

/// The tests in their order; a mutant names them by their places.
const REASONS: [Reason; 3] = [Reason::Security, Reason::Privilege, Reason::Compartment];

pub const MUTANTS: &[Mutant] = &[
    mutant(
        "rule0-priv-sec",
        "rule 0 tests privilege before security",
        swapped::<0, 0, 1>,
    ),
    mutant(
        "rule0-cid-priv",
        "rule 0 tests compartment before privilege",
        swapped::<0, 1, 2>,
    ),
    mutant("rule0-cid-sec", "rule 0 tests backward", swapped::<0, 0, 2>),
    mutant(
        "rule1-priv-sec",
        "rule 1 tests privilege before security",
        swapped::<1, 0, 1>,
    ),
    mutant(
        "rule1-cid-priv",
        "rule 1 tests compartment before privilege",
        swapped::<1, 1, 2>,
    ),
    mutant("rule1-cid-sec", "rule 1 tests backward", swapped::<1, 0, 2>),
    mutant(
        "rule2-priv-sec",
        "rule 2 tests privilege before security",
        swapped::<2, 0, 1>,
    ),
    mutant(
        "rule2-cid-priv",
        "rule 2 tests compartment before privilege",
        swapped::<2, 1, 2>,
    ),
    mutant("rule2-cid-sec", "rule 2 tests backward", swapped::<2, 0, 2>),
    mutant(
        "by-region",
        "a base region's tests come before the next one's",
        by_region,
    ),
    mutant("no-reason", "a refusal has no reason", no_reason),
    mutant(
        "master-no-reason",
        "a master's refusal has no reason",
        master_no_reason,
    ),
];

/// The enabled base regions that cover an offset, by their places.
fn covering(guard: &Guard, offset: u32) -> impl Iterator<Item = (usize, &Region)> {
    let regions = guard.own_regions().iter().enumerate();
    regions.filter(move |(_, region)| region.holds(offset))
}

/// The number of the rule that governs an offset.
fn rule_at(guard: &Guard, offset: u32) -> usize {
    let mut subregions = covering(guard, offset).flat_map(|(_, region)| &region.subregions);
    if subregions.any(|subregion| subregion.holds(offset)) {
        return 2;
    }
    usize::from(covering(guard, offset).next().is_some())
}

/// Which of the tests a memory access fails, whatever the others give.
fn failing(device: &Device, access: MemoryAccess) -> [bool; 3] {
    let mut secure = device.clone();
    for region in secure.guards.iter_mut().flat_map(|g| &mut g.regions) {
        region.cfgr |= SEC;
        for subregion in &mut region.subregions {
            subregion.cfgr |= SEC;
        }
    }
    let with_security = MemoryAccess {
        secure: true,
        ..access
    };
    let with_both = MemoryAccess {
        privileged: true,
        ..with_security
    };
    let tries = [
        (device, access),
        (&secure, with_security),
        (&secure, with_both),
    ];
    let mut reasons = REASONS.into_iter();
    tries.map(|(device, access)| {
        let answer = device.clone().apply(&Event::Memory(access));
        Some(answer) == reasons.next().map(Answer::Denied)
    })
}

/// The event with another reason if it is a memory access refused by a rule.
fn with_reason(
    device: &mut Device,
    event: &Event,
    rule: usize,
    other: impl Fn(&Device, MemoryAccess) -> Option<Reason>,
) -> Answer {
    let before = device.clone();
    let answer = device.apply(event);
    let (Some(access), Answer::Denied(_)) = (memory_access(&before, event), answer) else {
        return answer;
    };
    let guard = before.guard(access.guard).expect("it refused");
    if rule_at(guard, access.offset) != rule {
        return answer;
    }
    other(&before, access).map_or(answer, Answer::Denied)
}

/// Two tests of a rule in each other's place.
fn swapped<const RULE: usize, const ONE: usize, const OTHER: usize>(
    device: &mut Device,
    event: &Event,
) -> Answer {
    with_reason(device, event, RULE, |before, access| {
        let failing = failing(before, access);
        let mut order = [0, 1, 2];
        order.swap(ONE, OTHER);
        let first = order.into_iter().find(|&test| failing[test]);
        first.map(|test| REASONS[test])
    })
}

fn by_region(device: &mut Device, event: &Event) -> Answer {
    with_reason(device, event, 1, |before, access| {
        let guard = before.guard(access.guard)?;
        // The first region that refuses when it is alone.
        covering(guard, access.offset).find_map(|(alone, _)| {
            let mut trial = before.clone();
            let regions = &mut trial.guard_mut(access.guard)?.regions;
            for (index, region) in regions.iter_mut().enumerate() {
                region.cfgr &= !u32::from(index != alone);
            }
            match trial.apply(&Event::Memory(access)) {
                Answer::Denied(reason) => Some(reason),
                _ => None,
            }
        })
    })
}

fn no_reason(device: &mut Device, event: &Event) -> Answer {
    match device.apply(event) {
        Answer::Denied(_) => Answer::Refused,
        answer => answer,
    }
}

fn master_no_reason(device: &mut Device, event: &Event) -> Answer {
    match event {
        Event::Master(_) => no_reason(device, event),
        _ => device.apply(event),
    }
}
