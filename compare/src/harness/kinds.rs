//! The kinds of call, and the answers that each can get.

use super::call::Call;
use crate::model::{shape_of, Block, Bus, Direction, Event, RegisterAccess};

pub const REASONS: [&str; 4] = ["none", "security", "privilege", "compartment"];

/// A kind of call: the numbers it can get, the values of 0 told apart, and the
/// reasons that 1 can have.
pub struct Kind {
    pub name: &'static str,
    pub numbers: &'static [usize],
    pub values: &'static [&'static str],
    pub reasons: &'static [usize],
}

/// A kind of call that is refused without a reason.
const fn kind(
    name: &'static str,
    numbers: &'static [usize],
    values: &'static [&'static str],
) -> Kind {
    Kind {
        name,
        numbers,
        values,
        reasons: &[0],
    }
}

const fn memory_kind(name: &'static str, numbers: &'static [usize]) -> Kind {
    Kind {
        name,
        numbers,
        values: &["by default", "by base", "by subregion"],
        reasons: &[1, 2, 3],
    }
}

pub const KINDS: [Kind; 21] = [
    kind("reset", &[0, 8], &[]),
    kind("rifsc read", &[0, 3, 5, 8], &[]),
    kind("rifsc write", &[0, 1, 2, 3, 5, 8], &[]),
    kind("iac read", &[0, 1, 3, 5, 8], &[]),
    kind("iac write", &[0, 1, 3, 5, 8], &[]),
    kind("risaf read", &[0, 1, 3, 4, 5, 8], &[]),
    kind("risaf write", &[0, 1, 2, 3, 4, 5, 8], &[]),
    kind("no block", &[4, 8], &[]),
    kind("peripheral", &[0, 1, 4, 7, 8], &[]),
    memory_kind("memory", &[0, 1, 4, 5, 6, 8]),
    memory_kind("master", &[0, 1, 4, 5, 6, 8]),
    kind("line", &[0, 8], &["down", "up"]),
    kind("map", &[0, 4, 8], &[]),
    kind("lookup", &[0], &["row", "no row"]),
    kind("batch", &[0, 8], &[]),
    memory_kind("in a batch", &[0, 1, 4, 5, 6]),
    kind("diff", &[0, 4, 8], &[]),
    memory_kind("ahb memory", &[0, 1, 4, 5, 6, 8]),
    kind("ahb register", &[0, 1, 2, 3, 5, 8], &[]),
    kind("ahb map", &[0, 8], &[]),
    Kind {
        name: "script line",
        numbers: &[0, 1, 2, 3, 4, 5, 6, 7],
        values: &[],
        reasons: &[0, 1, 2, 3],
    },
];

fn register_kind(access: &RegisterAccess) -> usize {
    let block = match access.block {
        Block::Rifsc => 1,
        Block::Iac => 3,
        Block::Risaf(_) => 5,
    };
    block + usize::from(access.direction == Direction::Write)
}

pub fn kind_of(call: &Call) -> usize {
    match call {
        Call::Event(Event::Reset) => 0,
        Call::Event(Event::Register(access)) => register_kind(access),
        Call::NoBlock { .. } => 7,
        Call::Event(Event::Peripheral(_)) | Call::NoOperation { .. } => 8,
        Call::Event(Event::Memory(_)) => 9,
        Call::Event(Event::Master(_)) => 10,
        Call::Line => 11,
        Call::Map { .. } => 12,
        Call::Lookup { .. } => 13,
        Call::Batch { .. } => 14,
        Call::Diff { .. } => 16,
    }
}

/// The kind that a call at a guard on the AHB bus is besides.
pub fn ahb_kind(call: &Call) -> Option<usize> {
    let (guard, kind) = match call {
        Call::Event(Event::Memory(access)) => (access.guard, 17),
        Call::Event(Event::Master(access)) => (access.guard, 17),
        Call::Event(Event::Register(access)) => match access.block {
            Block::Risaf(guard) => (guard, 18),
            Block::Rifsc | Block::Iac => return None,
        },
        Call::Map { guard, .. } => (*guard, 19),
        _ => return None,
    };
    let shape = shape_of(guard)?;
    (shape.bus == Bus::Ahb).then_some(kind)
}
