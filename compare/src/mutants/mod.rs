//! The second program with one thing deliberately wrong in it. A comparison
//! that is worth anything finds each of them.
//!
//! The model itself has no switch for this: a mutant changes an event, the
//! state or the answer around the right rule.

mod ahb;
mod ahb_registers;
mod diffs;
mod held;
mod lent;
mod lines;
mod locks;
mod masters;
mod memory;
mod reasons;
mod registers;
mod written;

use crate::harness::modelled::{Rules, MODEL};
use crate::model::{Answer, Device, Event};
use crate::parts::lines::Filter;

#[derive(Clone, Copy)]
pub enum Change {
    /// In the model.
    Rules(Rules),
    /// In the reading of lines.
    Lines(Filter),
}

#[derive(Clone, Copy)]
pub struct Mutant {
    pub name: &'static str,
    /// What is wrong with it.
    pub wrong: &'static str,
    pub change: Change,
}

/// A model that does events in its own way.
const fn mutant(
    name: &'static str,
    wrong: &'static str,
    apply: fn(&mut Device, &Event) -> Answer,
) -> Mutant {
    let change = Change::Rules(Rules { apply, ..MODEL });
    Mutant {
        name,
        wrong,
        change,
    }
}

pub fn all() -> Vec<Mutant> {
    let lists = [
        memory::MUTANTS,
        reasons::MUTANTS,
        ahb::MUTANTS,
        ahb_registers::MUTANTS,
        masters::MUTANTS,
        registers::MUTANTS,
        locks::MUTANTS,
        held::MUTANTS,
        lent::MUTANTS,
        diffs::MUTANTS,
        lines::MUTANTS,
    ];
    lists.concat()
}
