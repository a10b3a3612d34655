//! Cases and their differences, to be read.

use super::call::{Call, Outcome};
use super::case::{Case, Difference};
use super::machine::Machine;
use super::names::word_name;
use std::fmt::Write;

impl Case {
    /// The case and both outcomes.
    pub fn report(&self, expected: &mut dyn Machine, subject: &mut dyn Machine) -> String {
        let mut text = format!("state of {} words, those not 0:\n", self.state.len());
        for (place, &word) in self.state.iter().enumerate().filter(|(_, &word)| word != 0) {
            writeln!(text, "  {place} {}: {word:08x}", word_name(place)).unwrap();
        }
        for call in &self.calls {
            put_call(&mut text, call);
        }
        match self.difference(expected, subject) {
            Some(difference) => put_difference(&mut text, &difference),
            None => text.push_str("no difference any more: it is not the case alone\n"),
        }
        text
    }
}

/// Long lists by what is not 0 in them.
fn put_call(text: &mut String, call: &Call) {
    match call {
        Call::Map { guard, lent } => {
            writeln!(text, "call map of guard {guard}").unwrap();
            put_numbers(text, "lent", lent);
        }
        Call::Batch { accesses, lent } => {
            writeln!(text, "call batch of {}", accesses.len()).unwrap();
            for access in accesses {
                writeln!(text, "  {access:x?}").unwrap();
            }
            put_numbers(text, "lent", lent);
        }
        Call::Lookup { numbers, offset } => {
            writeln!(text, "call lookup of {offset:x}").unwrap();
            put_numbers(text, "in", numbers);
        }
        Call::Diff {
            guard,
            before,
            after,
            lent,
        } => {
            writeln!(text, "call diff of guard {guard}").unwrap();
            put_numbers(text, "before", before);
            put_numbers(text, "after", after);
            put_numbers(text, "lent", lent);
        }
        _ => writeln!(text, "call {call:x?}").unwrap(),
    }
}

fn put_numbers(text: &mut String, what: &str, numbers: &[u64]) {
    let count = numbers.len();
    writeln!(text, "  {what} {count} numbers, those not 0:").unwrap();
    for (place, number) in numbers.iter().enumerate().filter(|(_, &n)| n != 0) {
        writeln!(text, "  {place}: {number:x}").unwrap();
    }
}

fn put_difference(text: &mut String, difference: &Difference) {
    writeln!(text, "differs at call {}", difference.at + 1).unwrap();
    let Difference { expected, got, .. } = difference;
    put_outcome(text, "expected", &expected.0);
    put_outcome(text, "got", &got.0);
    let lent = expected.0.lent.iter().zip(&got.0.lent).enumerate();
    for (place, (right, wrong)) in lent.filter(|(_, (right, wrong))| right != wrong) {
        writeln!(text, "  {place}: expected {right:x}, got {wrong:x}").unwrap();
    }
    let words = expected.1.iter().zip(&got.1).enumerate();
    for (place, (right, wrong)) in words.filter(|(_, (right, wrong))| right != wrong) {
        let name = word_name(place);
        let told = format!("expected {right:08x}, got {wrong:08x}");
        writeln!(text, "  {place} {name}: {told}").unwrap();
    }
}

fn put_outcome(text: &mut String, whose: &str, outcome: &Outcome) {
    let (number, value) = (outcome.answer >> 32, outcome.answer as u32);
    write!(text, "{whose} {number} {value:08x}, used {}", outcome.used).unwrap();
    let stray = if outcome.stray {
        ", memory changed that was not lent for it"
    } else {
        ""
    };
    writeln!(text, "{stray}").unwrap();
}
