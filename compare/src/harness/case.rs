//! A state and calls that show a difference.

use super::call::{Call, Outcome};
use super::machine::Machine;
use super::shrink::{blank, delete, fewer_rows, zero_bits};

#[derive(Clone, Default)]
pub struct Case {
    pub state: Vec<u32>,
    pub calls: Vec<Call>,
}

/// How many tries a case is given to become small.
const TRIES: usize = 30_000;

/// The first call after which the machines differ, and both as they are then.
pub struct Difference {
    pub at: usize,
    pub expected: (Outcome, Vec<u32>),
    pub got: (Outcome, Vec<u32>),
}

impl Case {
    pub fn difference(
        &self,
        expected: &mut dyn Machine,
        subject: &mut dyn Machine,
    ) -> Option<Difference> {
        expected.load(&self.state);
        subject.load(&self.state);
        for (at, call) in self.calls.iter().enumerate() {
            let outcomes = (expected.call(call), subject.call(call));
            if outcomes.0 != outcomes.1 || expected.words() != subject.words() {
                return Some(Difference {
                    at,
                    expected: (outcomes.0, expected.words().to_vec()),
                    got: (outcomes.1, subject.words().to_vec()),
                });
            }
        }
        None
    }

    /// The smallest case it finds that still shows a difference.
    pub fn smallest(self, expected: &mut dyn Machine, subject: &mut dyn Machine) -> Case {
        let mut tries = TRIES;
        let mut shows = |state: &[u32], calls: &[Call]| {
            tries = tries.saturating_sub(1);
            let case = Case {
                state: state.to_vec(),
                calls: calls.to_vec(),
            };
            tries > 0 && case.difference(expected, subject).is_some()
        };
        let Case { state, calls } = self;
        let mut calls = delete(calls, |calls| shows(&state, calls));
        let state = blank(state, 0, |state| shows(state, &calls));
        let state = zero_bits(state, |state| shows(state, &calls));
        for at in 0..calls.len() {
            let mut tried = calls.clone();
            calls[at] = smaller_lists(&calls[at], |call| {
                tried[at] = call;
                shows(&state, &tried)
            });
        }
        Case { state, calls }
    }
}

/// The call with the lists in it made smaller.
fn smaller_lists(call: &Call, mut shows: impl FnMut(Call) -> bool) -> Call {
    match call.clone() {
        Call::Batch { accesses, lent } => {
            let with = |accesses: &[_], lent: &[_]| Call::Batch {
                accesses: accesses.to_vec(),
                lent: lent.to_vec(),
            };
            let accesses = delete(accesses, |accesses| shows(with(accesses, &lent)));
            let lent = delete(lent, |lent| shows(with(&accesses, lent)));
            let lent = blank(lent, 0, |lent| shows(with(&accesses, lent)));
            Call::Batch { accesses, lent }
        }
        Call::Map { guard, lent } => {
            let with = |lent: &[_]| Call::Map {
                guard,
                lent: lent.to_vec(),
            };
            let lent = delete(lent, |lent| shows(with(lent)));
            let lent = blank(lent, 0, |lent| shows(with(lent)));
            Call::Map { guard, lent }
        }
        Call::Lookup { numbers, offset } => {
            let with = |numbers: &[_]| Call::Lookup {
                numbers: numbers.to_vec(),
                offset,
            };
            let numbers = delete(numbers, |numbers| shows(with(numbers)));
            Call::Lookup { numbers, offset }
        }
        Call::Diff {
            guard,
            before,
            after,
            lent,
        } => {
            let with = |before: &[_], after: &[_], lent: &[_]| Call::Diff {
                guard,
                before: before.to_vec(),
                after: after.to_vec(),
                lent: lent.to_vec(),
            };
            let before = fewer_rows(before, |before| shows(with(before, &after, &lent)));
            let after = fewer_rows(after, |after| shows(with(&before, after, &lent)));
            let before = blank(before, 0, |before| shows(with(before, &after, &lent)));
            let after = blank(after, 0, |after| shows(with(&before, after, &lent)));
            let lent = delete(lent, |lent| shows(with(&before, &after, lent)));
            let lent = blank(lent, 0, |lent| shows(with(&before, &after, lent)));
            with(&before, &after, &lent)
        }
        other => other,
    }
}
