//! Wrong rules for registers, reset and flags of the guards on the AHB bus.

use super::written::{guard_of, on_ahb, region_written, subregion_written};
use super::{mutant, Mutant};
use crate::model::{Answer, Device, Event};

/// DCCID 0 and 1 differ in it.
const DCCID_LOW: u32 = 1 << 4;

pub const MUTANTS: &[Mutant] = &[
    mutant("ahb-dccid-1", "DCCID must be 1 on the AHB bus", dccid_1),
    mutant("ahb-granule", "the granule there is 4,096", granule),
    mutant("ahb-reset-end", "reset END there is FFF", reset_end),
    mutant("ahb-flag-154", "guard 21 raises 154", flag_154),
    mutant("ahb-table-24", "22 and 23 raise 155 and 156", table_24),
];

fn dccid_1(device: &mut Device, event: &Event) -> Answer {
    let swap = |device: &mut Device| {
        let (number, region, place) = subregion_written(event)?;
        let guard = device.guard_mut(number).filter(|_| on_ahb(number))?;
        let region = guard.regions.get_mut(region)?;
        region.subregions[place as usize / 0x10 - 1].nest ^= DCCID_LOW;
        Some(())
    };
    swap(device);
    let answer = device.apply(event);
    swap(device);
    answer
}

/// Other flags than a guard's own.
fn raising(device: &mut Device, event: &Event, other: impl Fn(u32) -> Option<u32>) -> Answer {
    let before = device.iac.clone();
    let answer = device.apply(event);
    if let (true, Some(index)) = (answer.rights_fail(), guard_of(event).and_then(other)) {
        device.iac = before;
        device.iac.raise(index);
    }
    answer
}

fn flag_154(device: &mut Device, event: &Event) -> Answer {
    raising(device, event, |guard| (guard == 21).then_some(154))
}

fn table_24(device: &mut Device, event: &Event) -> Answer {
    raising(device, event, |guard| match guard {
        22 | 23 => Some(133 + guard),
        _ => None,
    })
}

fn granule(device: &mut Device, event: &Event) -> Answer {
    let answer = device.apply(event);
    if let (Some((number, region, place)), Answer::Done(_)) = (region_written(event), answer) {
        if let Some(guard) = device.guard_mut(number).filter(|_| on_ahb(number)) {
            let region = &mut guard.regions[region];
            let (start, end) = match place as usize / 0x10 {
                0 => (&mut region.start, &mut region.end),
                side => {
                    let subregion = &mut region.subregions[side - 1];
                    (&mut subregion.start, &mut subregion.end)
                }
            };
            match place % 0x10 {
                0x4 => *start &= !0xFFF,
                0x8 => *end |= 0xFFF,
                _ => {}
            }
        }
    }
    answer
}

fn reset_end(device: &mut Device, event: &Event) -> Answer {
    let answer = device.apply(event);
    if *event == Event::Reset {
        for region in device.guards.iter_mut().flat_map(|g| &mut g.regions) {
            let [a, b] = &mut region.subregions;
            (region.end, a.end, b.end) = (0xFFF, 0xFFF, 0xFFF);
        }
    }
    answer
}
