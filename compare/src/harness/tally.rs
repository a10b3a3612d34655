//! How often each kind of call got each answer, and which must be met.

use super::call::{Call, Outcome};
use super::kinds::{ahb_kind, kind_of, Kind, KINDS, REASONS};
use std::fmt::Write;

const NUMBERS: usize = 9;
const VALUES: usize = 3;

#[derive(Default)]
pub struct Tally {
    numbers: [[u64; NUMBERS]; KINDS.len()],
    values: [[u64; VALUES]; KINDS.len()],
    reasons: [[u64; REASONS.len()]; KINDS.len()],
}

impl Tally {
    pub fn count(&mut self, call: &Call, outcome: &Outcome) {
        let kind = kind_of(call);
        match call {
            Call::Lookup { .. } => self.add(kind, u64::from(outcome.lent.is_empty())),
            _ => self.add(kind, outcome.answer),
        }
        if let Some(kind) = ahb_kind(call) {
            self.add(kind, outcome.answer);
        }
        if let Call::Batch { accesses, .. } = call {
            let done = if outcome.answer == 0 {
                accesses.len()
            } else {
                0
            };
            for &answer in &outcome.lent[..done] {
                self.add(kind + 1, answer);
            }
        }
    }

    /// Counts the numbers and reasons of all answers that a script printed.
    pub fn count_script(&mut self, output: &[u8]) {
        for line in output.split(|&byte| byte == b'\n') {
            // A reason is the last digit of its word.
            if let Some([number @ b'0'..=b'8', .., last]) = line.strip_prefix(b"ans\t") {
                let reason = u64::from(last.wrapping_sub(b'0'));
                self.add(KINDS.len() - 1, u64::from(number - b'0') << 32 | reason);
            }
        }
    }

    fn add(&mut self, kind: usize, answer: u64) {
        let (number, value) = ((answer >> 32) as usize, answer as u32 as usize);
        if number < NUMBERS {
            self.numbers[kind][number] += 1;
        }
        if number == 0 && value < VALUES {
            self.values[kind][value] += 1;
        }
        if number == 1 && value < REASONS.len() {
            self.reasons[kind][value] += 1;
        }
    }

    /// How many pairs of kind and answer there are, or those that are amiss.
    pub fn verdict(&self) -> Result<usize, String> {
        let (mut met, mut amiss) = (0, String::new());
        for (at, kind) in KINDS.iter().enumerate() {
            let mut check = |what: String, possible: bool, count: u64| {
                if possible != (count > 0) {
                    let how = if possible { "never" } else { "wrongly" };
                    writeln!(amiss, "{} got {what} {how}", kind.name).unwrap();
                }
                met += usize::from(possible);
            };
            for (number, &count) in self.numbers[at].iter().enumerate() {
                check(number.to_string(), kind.numbers.contains(&number), count);
            }
            for (value, &count) in kind.values.iter().zip(&self.values[at]) {
                check(format!("0 {value}"), true, count);
            }
            for (reason, &count) in self.reasons[at].iter().enumerate() {
                let possible = kind.numbers.contains(&1) && kind.reasons.contains(&reason);
                check(format!("1 for {}", REASONS[reason]), possible, count);
            }
        }
        if amiss.is_empty() {
            Ok(met)
        } else {
            Err(amiss)
        }
    }

    /// The counts as a table; a dash where there can be none.
    pub fn table(&self) -> String {
        let mut table = format!("{:<12}", "answer");
        for number in 0..NUMBERS {
            write!(table, "{number:>10}").unwrap();
        }
        table.push('\n');
        for (kind, numbers) in KINDS.iter().zip(&self.numbers) {
            write!(table, "{:<12}", kind.name).unwrap();
            for (number, &count) in numbers.iter().enumerate() {
                if count == 0 && !kind.numbers.contains(&number) {
                    write!(table, "{:>10}", "-").unwrap();
                } else {
                    write!(table, "{count:>10}").unwrap();
                }
            }
            table.push('\n');
        }
        for (at, kind) in KINDS.iter().enumerate() {
            put_told(&mut table, kind, 0, kind.values, &self.values[at]);
            if kind.reasons.len() > 1 {
                put_told(&mut table, kind, 1, &REASONS, &self.reasons[at]);
            }
        }
        table
    }
}

/// A line with the counts of what is told apart under a number, if anything is.
fn put_told(table: &mut String, kind: &Kind, number: usize, names: &[&str], counts: &[u64]) {
    let told = names.iter().zip(counts);
    let told: Vec<String> = told
        .map(|(name, count)| format!("{count} {name}"))
        .collect();
    if !told.is_empty() {
        writeln!(table, "{} {number}: {}", kind.name, told.join(", ")).unwrap();
    }
}
