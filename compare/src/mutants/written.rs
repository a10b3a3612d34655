//! What an event writes to, and what it raises.

use crate::model::{
    shape_of, Answer, Block, Bus, Device, Direction, Event, RegisterAccess, Subregion,
};

/// The write to a register that an event is.
pub fn write_of(event: &Event) -> Option<&RegisterAccess> {
    match event {
        Event::Register(access) if access.direction == Direction::Write => Some(access),
        _ => None,
    }
}

/// The done write to IER or ICR that an event is.
pub fn iac_written(event: &Event, answer: Answer) -> Option<&RegisterAccess> {
    let done = answer == Answer::Done(0);
    write_of(event).filter(|access| done && access.block == Block::Iac)
}

/// The number of the guard that an event names.
pub fn guard_of(event: &Event) -> Option<u32> {
    match event {
        Event::Memory(access) => Some(access.guard),
        Event::Master(access) => Some(access.guard),
        Event::Register(access) => match access.block {
            Block::Risaf(guard) => Some(guard),
            Block::Rifsc | Block::Iac => None,
        },
        Event::Reset | Event::Peripheral(_) => None,
    }
}

/// Whether there is a guard of that number on the AHB bus.
pub fn on_ahb(guard: u32) -> bool {
    shape_of(guard).is_some_and(|shape| shape.bus == Bus::Ahb)
}

/// The word and the bit of the flag, present or not, that a refusal raises.
pub fn raised_by(event: &Event, answer: Answer) -> Option<(usize, u32)> {
    let index = match event {
        _ if !answer.rights_fail() => return None,
        Event::Peripheral(access) => access.peripheral,
        Event::Register(access) if access.block == Block::Rifsc => 158,
        Event::Register(access) if access.block == Block::Iac => 138,
        _ => shape_of(guard_of(event)?)?.flag,
    };
    Some((index as usize / 32, 1 << (index % 32)))
}

/// A guard, a region from 0 and a place in it.
pub type Place = (u32, usize, u32);

/// The place in a region that an event writes to.
pub fn region_written(event: &Event) -> Option<Place> {
    let access = write_of(event)?;
    match access.block {
        Block::Risaf(guard) if access.offset >= 0x40 => {
            let region = access.offset as usize / 0x40 - 1;
            Some((guard, region, access.offset % 0x40))
        }
        _ => None,
    }
}

/// The same if it is CFGR, START or END of a subregion.
pub fn subregion_written(event: &Event) -> Option<Place> {
    let place = region_written(event)?;
    matches!(place.2, 0x10..0x1C | 0x20..0x2C).then_some(place)
}

/// The subregion whose CFGR an event writes to, and the data.
pub fn subregion_cfgr<'a>(
    device: &'a mut Device,
    event: &Event,
) -> Option<(&'a mut Subregion, u32)> {
    let data = write_of(event)?.data;
    let (guard, region, place) = region_written(event)?;
    let side = match place {
        0x10 => 0,
        0x20 => 1,
        _ => return None,
    };
    let region = device.guard_mut(guard)?.regions.get_mut(region)?;
    Some((&mut region.subregions[side], data))
}
