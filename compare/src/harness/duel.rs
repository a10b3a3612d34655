//! Two machines given the same calls.

use super::call::{Call, Outcome};
use super::case::Case;
use super::machine::Machine;
use super::tally::Tally;

pub struct Duel<'a> {
    pub expected: &'a mut dyn Machine,
    pub subject: &'a mut dyn Machine,
    pub tally: &'a mut Tally,
    case: Case,
}

impl<'a> Duel<'a> {
    pub fn new(
        expected: &'a mut dyn Machine,
        subject: &'a mut dyn Machine,
        tally: &'a mut Tally,
    ) -> Duel<'a> {
        Duel {
            expected,
            subject,
            tally,
            case: Case::default(),
        }
    }

    /// Starts afresh from a state.
    pub fn load(&mut self, state: Vec<u32>) {
        self.expected.load(&state);
        self.subject.load(&state);
        self.case = Case {
            state,
            calls: Vec::new(),
        };
    }

    /// The state now.
    pub fn words(&self) -> &[u32] {
        self.expected.words()
    }

    /// One call on both: what is expected, or the case so far if they differ.
    pub fn step(&mut self, call: Call) -> Result<Outcome, Case> {
        let expected = self.expected.call(&call);
        let got = self.subject.call(&call);
        let same = expected == got && self.expected.words() == self.subject.words();
        self.tally.count(&call, &expected);
        self.case.calls.push(call);
        if same {
            Ok(expected)
        } else {
            Err(std::mem::take(&mut self.case))
        }
    }
}
