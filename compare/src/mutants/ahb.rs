//! Wrong rules for accesses to the guards on the AHB bus, and for their maps.

use super::memory::memory_access;
use super::written::on_ahb;
use super::{mutant, Change, Mutant};
use crate::harness::modelled::{Rules, MODEL};
use crate::model::{shape_of, Answer, Bus, Device, Event, MemoryAccess, Reason, Rule, Span};

const IAEF: u32 = 1 << 1;
const CID: u32 = 7;
const SRCID: u32 = 7 << 4;

/// A guard on the AXI bus with all regions that are stored and the widest
/// window, and the one on the AHB bus with most.
const WIDEST_AXI: u32 = 4;
const WIDEST_AHB: u32 = 21;

/// A model that makes maps in its own way.
const fn mapped(
    name: &'static str,
    wrong: &'static str,
    map: fn(&Device, u32) -> Result<Vec<Span>, Answer>,
) -> Mutant {
    let change = Change::Rules(Rules { map, ..MODEL });
    Mutant {
        name,
        wrong,
        change,
    }
}

pub const MUTANTS: &[Mutant] = &[
    mutant("ahb-cid7", "CID 7 passes on the AHB bus", cid7),
    mutant("ahb-rule0-cid", "rule 0 tests the CID there", rule0_cid),
    mutant("ahb-mcid", "a master's MCID counts there", mcid),
    mutant("ahb-srcid", "SRCID counts as 0 there", srcid),
    mutant("ahb-iaesr", "IAESR gets the CID given there", iaesr),
    mutant("ahb-regions", "15 and 23 have 7 regions", regions),
    mapped("ahb-map-cids", "a map there goes by CIDs", map_cids),
    mapped("ahb-map-cid0", "a map there is CID 0's alone", map_cid0),
];

/// The access to a guard on the AHB bus that an event is.
fn ahb_access(device: &Device, event: &Event) -> Option<MemoryAccess> {
    memory_access(device, event).filter(|access| on_ahb(access.guard))
}

/// The device with a guard's first regions in another guard.
fn lent_to(device: &Device, guard: u32, other: u32, count: usize) -> Device {
    let mut device = device.clone();
    let lender = device.guard(guard).expect("it is on the bus");
    let mut regions = lender.regions;
    for region in &mut regions[count..] {
        region.cfgr = 0;
    }
    device.guard_mut(other).expect("it is widest").regions = regions;
    device
}

/// What an access would get were its guard like another.
fn asked_of(device: &Device, access: &MemoryAccess, other: u32, count: usize) -> Answer {
    let mut trial = lent_to(device, access.guard, other, count);
    trial.apply(&Event::Memory(MemoryAccess {
        guard: other,
        ..*access
    }))
}

/// What it would get on the AXI bus.
fn on_axi(device: &Device, access: &MemoryAccess) -> Answer {
    let own = shape_of(access.guard).map_or(0, |shape| shape.regions);
    asked_of(device, access, WIDEST_AXI, own)
}

/// The event, or only another answer to an access there that gets as far as a
/// rule.
fn answering(
    device: &mut Device,
    event: &Event,
    other: impl Fn(&Device, &MemoryAccess, Answer) -> Option<Answer>,
) -> Answer {
    if let Some(access) = ahb_access(device, event) {
        let right = device.clone().apply(event);
        let judged = right.rights_fail() || matches!(right, Answer::Granted(_));
        let wrong = other(device, &access, right).filter(|wrong| judged && *wrong != right);
        if let Some(wrong) = wrong {
            return wrong;
        }
    }
    device.apply(event)
}

fn cid7(device: &mut Device, event: &Event) -> Answer {
    answering(device, event, |device, access, _| {
        let answer = (access.cid == 7).then(|| on_axi(device, access));
        answer.filter(|answer| matches!(answer, Answer::Granted(_)))
    })
}

fn rule0_cid(device: &mut Device, event: &Event) -> Answer {
    answering(device, event, |_, access, right| {
        let fails = right == Answer::Granted(Rule::Default) && !matches!(access.cid, 1 | 7);
        fails.then_some(Answer::Denied(Reason::Compartment))
    })
}

fn mcid(device: &mut Device, event: &Event) -> Answer {
    answering(device, event, |device, access, _| {
        matches!(event, Event::Master(_)).then(|| on_axi(device, access))
    })
}

fn srcid(device: &mut Device, event: &Event) -> Answer {
    if ahb_access(device, event).is_none() {
        return device.apply(event);
    }
    let kept = device.guards.clone().map(|guard| guard.regions);
    for guard in device.guards.iter_mut() {
        let ahb = guard.shape().bus == Bus::Ahb;
        for region in guard.regions.iter_mut().filter(|_| ahb) {
            for subregion in &mut region.subregions {
                subregion.cfgr &= !SRCID;
            }
        }
    }
    let answer = device.apply(event);
    for (guard, regions) in device.guards.iter_mut().zip(kept) {
        guard.regions = regions;
    }
    answer
}

fn iaesr(device: &mut Device, event: &Event) -> Answer {
    let access = ahb_access(device, event);
    let first = device.guards.clone().map(|guard| guard.iasr & IAEF == 0);
    let answer = device.apply(event);
    if let (Some(access), Answer::Denied(_)) = (access, answer) {
        let guards = device.guards.iter_mut().zip(first);
        for (guard, first) in guards.filter(|(guard, _)| guard.shape().number == access.guard) {
            if first {
                guard.iaesr = guard.iaesr & !CID | access.cid;
            }
        }
    }
    answer
}

fn regions(device: &mut Device, event: &Event) -> Answer {
    let count = shape_of(WIDEST_AHB).map_or(0, |shape| shape.regions);
    answering(device, event, |device, access, _| {
        Some(asked_of(device, access, WIDEST_AHB, count))
    })
}

fn map_cids(device: &Device, guard: u32) -> Result<Vec<Span>, Answer> {
    let Some(shape) = shape_of(guard).filter(|_| on_ahb(guard)) else {
        return device.map(guard);
    };
    let mut spans = lent_to(device, guard, WIDEST_AXI, shape.regions).map(WIDEST_AXI)?;
    spans.retain(|span| span.start < shape.window);
    if let Some(last) = spans.last_mut() {
        last.end = shape.window - 1;
    }
    Ok(spans)
}

fn map_cid0(device: &Device, guard: u32) -> Result<Vec<Span>, Answer> {
    let mut spans = device.map(guard)?;
    for span in spans.iter_mut().filter(|_| on_ahb(guard)) {
        span.rights &= 0x0101_0101_0101_0101;
    }
    Ok(spans)
}
