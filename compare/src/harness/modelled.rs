//! The machine that goes by the model.

use super::call::{packed, Call, Outcome};
use super::machine::Machine;
use super::words::{device_of, store, STATE_WORDS};
use crate::model::diff::diff;
use crate::model::{lookup, Answer, Device, Event, MemoryAccess, Span};

/// What differs between two maps: guard, before, after, room.
pub type Differ = fn(u32, &[u64], &[u64], &mut [u64]) -> (Answer, usize);

/// The model's rules; a mutant has one of them changed.
#[derive(Clone, Copy)]
pub struct Rules {
    pub apply: fn(&mut Device, &Event) -> Answer,
    pub line: fn(&Device) -> bool,
    pub map: fn(&Device, u32) -> Result<Vec<Span>, Answer>,
    pub lookup: fn(&[u64], u64) -> &[u64],
    /// The least count of numbers lent for a map.
    pub map_numbers: usize,
    pub diff: Differ,
}

pub const MODEL: Rules = Rules {
    apply: Device::apply,
    line: Device::interrupt_line,
    map: Device::map,
    lookup,
    map_numbers: 201,
    diff,
};

pub struct Modelled {
    rules: Rules,
    /// None when the words are not as many as a state has.
    device: Option<Device>,
    words: Vec<u32>,
}

impl Modelled {
    pub fn new(rules: Rules) -> Modelled {
        Modelled {
            rules,
            device: None,
            words: Vec::new(),
        }
    }

    fn apply(&mut self, event: &Event) -> Outcome {
        let Some(device) = &mut self.device else {
            return Outcome::of(packed(Answer::WrongLength));
        };
        let answer = (self.rules.apply)(device, event);
        store(device, &mut self.words);
        Outcome::of(packed(answer))
    }

    /// A number that names nothing; the length of the state comes first.
    fn no_target(&self) -> Outcome {
        Outcome::of(packed(match self.device {
            Some(_) => Answer::NoTarget,
            None => Answer::WrongLength,
        }))
    }

    fn line(&self) -> Outcome {
        let answer = match &self.device {
            Some(device) => Answer::Done(u32::from((self.rules.line)(device))),
            None => Answer::WrongLength,
        };
        Outcome::of(packed(answer))
    }

    fn map(&self, guard: u32, lent: &[u64]) -> Outcome {
        let made = match &self.device {
            Some(device) if lent.len() >= self.rules.map_numbers => (self.rules.map)(device, guard),
            _ => Err(Answer::WrongLength),
        };
        let mut lent = lent.to_vec();
        let (answer, used) = match made {
            Ok(spans) => {
                for (row, span) in lent.chunks_exact_mut(3).zip(&spans) {
                    row.copy_from_slice(&[span.start, span.end, span.rights]);
                }
                (Answer::Done(0), 3 * spans.len() as u64)
            }
            Err(refusal) => (refusal, 0),
        };
        Outcome {
            used,
            lent,
            ..Outcome::of(packed(answer))
        }
    }

    fn lookup(&self, numbers: &[u64], offset: u64) -> Outcome {
        let row = (self.rules.lookup)(numbers, offset);
        Outcome {
            lent: row.to_vec(),
            ..Outcome::of(row.len() as u64)
        }
    }

    fn diff(&self, guard: u32, before: &[u64], after: &[u64], lent: &[u64]) -> Outcome {
        let mut lent = lent.to_vec();
        let (answer, used) = (self.rules.diff)(guard, before, after, &mut lent);
        Outcome {
            used: used as u64,
            lent,
            ..Outcome::of(packed(answer))
        }
    }

    fn batch(&mut self, accesses: &[MemoryAccess], lent: &[u64]) -> Outcome {
        let mut lent = lent.to_vec();
        let refused = self.device.is_none() || lent.len() < accesses.len();
        let answer = if refused {
            Answer::WrongLength
        } else {
            for (place, access) in lent.iter_mut().zip(accesses) {
                *place = self.apply(&Event::Memory(*access)).answer;
            }
            Answer::Done(0)
        };
        Outcome {
            lent,
            ..Outcome::of(packed(answer))
        }
    }
}

impl Machine for Modelled {
    fn load(&mut self, words: &[u32]) {
        self.words.clear();
        self.words.extend_from_slice(words);
        self.device = (words.len() == STATE_WORDS).then(|| device_of(words));
    }

    fn call(&mut self, call: &Call) -> Outcome {
        match call {
            Call::Event(event) => self.apply(event),
            Call::NoBlock { .. } | Call::NoOperation { .. } => self.no_target(),
            Call::Line => self.line(),
            Call::Map { guard, lent } => self.map(*guard, lent),
            Call::Lookup { numbers, offset } => self.lookup(numbers, *offset),
            Call::Batch { accesses, lent } => self.batch(accesses, lent),
            Call::Diff {
                guard,
                before,
                after,
                lent,
            } => self.diff(*guard, before, after, lent),
        }
    }

    fn words(&self) -> &[u32] {
        &self.words
    }
}
