//! Calls of the C interface, and what comes back.

use crate::model::{Answer, Event, MemoryAccess, PeripheralAccess, RegisterAccess};

#[derive(Clone, Debug, PartialEq)]
pub enum Call {
    Event(Event),
    /// A register access whose block number is none.
    NoBlock {
        block: u32,
        access: RegisterAccess,
    },
    /// A peripheral access whose operation number is none.
    NoOperation {
        operation: u32,
        access: PeripheralAccess,
    },
    /// The interrupt line.
    Line,
    /// A map into lent numbers, given with what they hold before.
    Map {
        guard: u32,
        lent: Vec<u64>,
    },
    Lookup {
        numbers: Vec<u64>,
        offset: u64,
    },
    /// Accesses with lent answers, given with what they hold before.
    Batch {
        accesses: Vec<MemoryAccess>,
        lent: Vec<u64>,
    },
    /// What differs between two maps, into lent numbers, given with what they
    /// hold before. It has no state.
    Diff {
        guard: u32,
        before: Vec<u64>,
        after: Vec<u64>,
        lent: Vec<u64>,
    },
}

#[derive(Clone, Debug, Default, PartialEq)]
pub struct Outcome {
    /// What the function returned.
    pub answer: u64,
    /// How many lent numbers are the map, or the rows of what differs.
    pub used: u64,
    /// The lent numbers afterwards.
    pub lent: Vec<u64>,
    /// Whether memory changed that was not lent to be changed.
    pub stray: bool,
}

impl Outcome {
    pub fn of(answer: u64) -> Outcome {
        Outcome {
            answer,
            ..Outcome::default()
        }
    }
}

/// An answer as the C interface gives it: 2^32 * number + value.
pub fn packed(answer: Answer) -> u64 {
    u64::from(answer.number()) << 32 | u64::from(answer.value())
}
