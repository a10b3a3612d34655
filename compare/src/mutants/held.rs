//! Wrong rules for the interrupt line and the count that are held.

use super::written::{iac_written, raised_by};
use super::{mutant, Change, Mutant};
use crate::harness::modelled::{Rules, MODEL};
use crate::model::{Answer, Device, Event, Iac, IISR};

const LINE: u32 = 1;
const COUNT: u32 = 0xFF;

/// A model that reads the line in its own way.
const fn asked(name: &'static str, wrong: &'static str, line: fn(&Device) -> bool) -> Mutant {
    let change = Change::Rules(Rules { line, ..MODEL });
    Mutant {
        name,
        wrong,
        change,
    }
}

pub const MUTANTS: &[Mutant] = &[
    asked("line-recounted", "the line is worked out", line_recounted),
    asked("line-by-count", "a count makes the line", line_by_count),
    asked("line-whole-word", "any bit is the line", line_whole_word),
    mutant("count-on-load", "each state is counted again", on_load),
    mutant("count-fresh", "a change counts afresh", fresh),
    mutant("count-set-flag", "a raise of a set flag counts", set_flag),
    mutant("count-absent", "flags not present count", absent),
    mutant("count-carries", "the count has no modulus", carries),
    mutant("count-saturates", "the count stops at its ends", saturates),
    mutant("line-lazy", "an equal count leaves the line", lazy),
    mutant("line-eager", "events in vain set the line", eager),
    mutant("line-cleared", "the line's other bits are lost", line_lost),
    mutant(
        "count-cleared",
        "the count's other bits are lost",
        count_lost,
    ),
    mutant("reset-held", "reset leaves other held bits", reset_held),
];

fn line_recounted(device: &Device) -> bool {
    device.iac.fresh_count() != 0
}

fn line_by_count(device: &Device) -> bool {
    device.iac.count & COUNT != 0
}

fn line_whole_word(device: &Device) -> bool {
    device.iac.line != 0
}

/// Holds a count modulo 256, and the line that goes with it.
fn hold(iac: &mut Iac, count: u32) {
    iac.count = iac.count & !COUNT | count & COUNT;
    iac.line = iac.line & !LINE | u32::from(count & COUNT != 0);
}

/// The event, and what is done to the IAC after it, given that before it.
fn after(device: &mut Device, event: &Event, then: impl Fn(&Iac, &mut Iac, Answer)) -> Answer {
    let before = device.iac.clone();
    let answer = device.apply(event);
    if *event != Event::Reset {
        then(&before, &mut device.iac, answer);
    }
    answer
}

fn same_bits(before: &Iac, iac: &Iac) -> bool {
    (before.ier, before.isr) == (iac.ier, iac.isr)
}

/// The same, where the event changes a flag or an enable.
fn after_change(device: &mut Device, event: &Event, then: impl Fn(&Iac, &mut Iac)) -> Answer {
    after(device, event, |before, iac, _| {
        if !same_bits(before, iac) {
            then(before, iac);
        }
    })
}

/// The change in the fresh count.
fn change(before: &Iac, iac: &Iac) -> i32 {
    iac.fresh_count() as i32 - before.fresh_count() as i32
}

fn on_load(device: &mut Device, event: &Event) -> Answer {
    let count = device.iac.fresh_count();
    hold(&mut device.iac, count);
    device.apply(event)
}

fn fresh(device: &mut Device, event: &Event) -> Answer {
    after_change(device, event, |_, iac| hold(iac, iac.fresh_count()))
}

fn set_flag(device: &mut Device, event: &Event) -> Answer {
    after(device, event, |before, iac, answer| {
        if let Some((x, bit)) = raised_by(event, answer) {
            if before.isr[x] & iac.ier[x] & IISR[x] & bit != 0 {
                hold(iac, before.count.wrapping_add(1));
            }
        }
    })
}

/// Flags and enables as an event would leave them were all of them present.
fn all_present(mut iac: Iac, event: &Event, answer: Answer) -> Iac {
    if let Some((x, bit)) = raised_by(event, answer) {
        iac.isr[x] |= bit;
    }
    if let Some(access) = iac_written(event, answer) {
        let x = (access.offset % 0x80) as usize / 4;
        match access.offset / 0x80 {
            0 => iac.ier[x] = access.data,
            _ => iac.isr[x] &= !access.data,
        }
    }
    iac
}

fn absent(device: &mut Device, event: &Event) -> Answer {
    let count = |iac: &Iac| {
        let both = iac.isr.iter().zip(&iac.ier);
        both.map(|(isr, ier)| (isr & ier).count_ones()).sum::<u32>()
    };
    after(device, event, |before, iac, answer| {
        let wrong = all_present(before.clone(), event, answer);
        if !same_bits(before, &wrong) {
            let counted = before.count.wrapping_add(count(&wrong));
            hold(iac, counted.wrapping_sub(count(before)));
        }
    })
}

fn carries(device: &mut Device, event: &Event) -> Answer {
    after_change(device, event, |before, iac| {
        iac.count = before.count.wrapping_add_signed(change(before, iac));
    })
}

fn saturates(device: &mut Device, event: &Event) -> Answer {
    after_change(device, event, |before, iac| {
        let count = (before.count & COUNT) as i32 + change(before, iac);
        hold(iac, count.clamp(0, 255) as u32);
    })
}

fn lazy(device: &mut Device, event: &Event) -> Answer {
    after_change(device, event, |before, iac| {
        if change(before, iac) == 0 {
            iac.line = before.line;
        }
    })
}

fn eager(device: &mut Device, event: &Event) -> Answer {
    after(device, event, |before, iac, answer| {
        let raises = raised_by(event, answer).is_some();
        let tries = raises || iac_written(event, answer).is_some();
        if tries && same_bits(before, iac) {
            hold(iac, before.count);
        }
    })
}

fn line_lost(device: &mut Device, event: &Event) -> Answer {
    after_change(device, event, |_, iac| iac.line &= LINE)
}

fn count_lost(device: &mut Device, event: &Event) -> Answer {
    after_change(device, event, |_, iac| iac.count &= COUNT)
}

fn reset_held(device: &mut Device, event: &Event) -> Answer {
    let (line, count) = (device.iac.line, device.iac.count);
    let answer = device.apply(event);
    if *event == Event::Reset {
        (device.iac.line, device.iac.count) = (line & !LINE, count & !COUNT);
    }
    answer
}
