//! A library as a machine, with a fence around all it is lent.

use super::{Access, Library};
use crate::harness::call::{Call, Outcome};
use crate::harness::machine::Machine;
use crate::model::{Block, Event, MemoryAccess, Purpose, RegisterAccess};

/// How many elements lie before and after lent memory, and what they hold.
const FENCE: usize = 8;
const POST: u32 = 0x5AFE_C0DE;

/// Memory with a fence around it.
#[derive(Default)]
struct Fenced<T>(Vec<T>);

impl<T: Copy + PartialEq + From<u32>> Fenced<T> {
    fn new(inside: &[T]) -> Fenced<T> {
        let fence = [T::from(POST); FENCE];
        Fenced([&fence, inside, &fence].concat())
    }

    fn inside(&self) -> &[T] {
        let end = self.0.len() - FENCE;
        &self.0[FENCE..end]
    }

    /// The lent part; when empty, no memory at all.
    fn lend(&mut self) -> &mut [T] {
        let end = self.0.len() - FENCE;
        if end == FENCE {
            return &mut [];
        }
        &mut self.0[FENCE..end]
    }

    fn broken(&self) -> bool {
        let end = self.0.len() - FENCE;
        let mut fence = self.0[..FENCE].iter().chain(&self.0[end..]);
        fence.any(|&post| post != T::from(POST))
    }
}

pub struct Linked {
    library: &'static Library,
    state: Fenced<u32>,
}

impl Linked {
    pub fn new(library: &'static Library) -> Linked {
        Linked {
            library,
            state: Fenced::new(&[]),
        }
    }

    fn event(&mut self, event: &Event) -> u64 {
        let state = self.state.lend();
        match event {
            Event::Reset => self.library.reset(state),
            Event::Register(access) => self.register(access),
            Event::Peripheral(access) => {
                let operation = match access.purpose {
                    Purpose::Read => 0,
                    Purpose::Write => 1,
                    Purpose::Fetch => 2,
                };
                self.library.peripheral(state, operation, access)
            }
            Event::Memory(access) => self.library.memory(state, access),
            Event::Master(access) => self.library.master(state, access),
        }
    }

    fn register(&mut self, access: &RegisterAccess) -> u64 {
        // Only a RISAF has a guard's number; elsewhere any number will do.
        let (block, guard) = match access.block {
            Block::Rifsc => (0, access.data),
            Block::Iac => (1, access.data),
            Block::Risaf(guard) => (2, guard),
        };
        self.library
            .register(self.state.lend(), block, guard, access)
    }

    fn map(&mut self, guard: u32, lent: &[u64]) -> Outcome {
        let (mut lent, mut used) = (Fenced::new(lent), u64::from(POST));
        let answer = self
            .library
            .map(self.state.inside(), guard, lent.lend(), &mut used);
        Outcome {
            answer,
            used,
            stray: lent.broken(),
            lent: lent.inside().to_vec(),
        }
    }

    fn batch(&mut self, accesses: &[MemoryAccess], lent: &[u64]) -> Outcome {
        let accesses: Vec<Access> = accesses.iter().map(Access::from).collect();
        let (kept, mut lent) = (accesses.clone(), Fenced::new(lent));
        let answer = self
            .library
            .batch(self.state.lend(), &accesses, lent.lend());
        Outcome {
            answer,
            stray: lent.broken() || accesses != kept,
            lent: lent.inside().to_vec(),
            ..Outcome::default()
        }
    }
}

/// A lookup, which may change only the row, and that only where there is one.
fn look(library: &Library, numbers: &[u64], offset: u64) -> Outcome {
    let lent = Fenced::new(numbers);
    let mut row = [u64::from(POST); 3];
    let answer = library.lookup(lent.inside(), offset, &mut row);
    let (found, rest) = row.split_at(row.len().min(answer as usize));
    let kept = rest.iter().all(|&number| number == u64::from(POST));
    Outcome {
        stray: lent.broken() || lent.inside() != numbers || !kept,
        lent: found.to_vec(),
        ..Outcome::of(answer)
    }
}

/// What differs between two maps, which stay as they are.
fn differ(library: &Library, guard: u32, before: &[u64], after: &[u64], lent: &[u64]) -> Outcome {
    let (old, new) = (Fenced::new(before), Fenced::new(after));
    let (mut lent, mut used) = (Fenced::new(lent), u64::from(POST));
    let answer = library.diff(guard, old.inside(), new.inside(), lent.lend(), &mut used);
    let kept = old.inside() == before && new.inside() == after;
    Outcome {
        answer,
        used,
        stray: !kept || old.broken() || new.broken() || lent.broken(),
        lent: lent.inside().to_vec(),
    }
}

impl Machine for Linked {
    fn load(&mut self, words: &[u32]) {
        self.state = Fenced::new(words);
    }

    fn call(&mut self, call: &Call) -> Outcome {
        let mut outcome = match call {
            Call::Event(event) => Outcome::of(self.event(event)),
            Call::NoBlock { block, access } => {
                let state = self.state.lend();
                Outcome::of(self.library.register(state, *block, access.data, access))
            }
            Call::NoOperation { operation, access } => {
                let state = self.state.lend();
                Outcome::of(self.library.peripheral(state, *operation, access))
            }
            Call::Line => Outcome::of(self.library.line(self.state.inside())),
            Call::Map { guard, lent } => self.map(*guard, lent),
            Call::Lookup { numbers, offset } => look(self.library, numbers, *offset),
            Call::Batch { accesses, lent } => self.batch(accesses, lent),
            Call::Diff {
                guard,
                before,
                after,
                lent,
            } => differ(self.library, *guard, before, after, lent),
        };
        outcome.stray |= self.state.broken();
        outcome
    }

    fn words(&self) -> &[u32] {
        self.state.inside()
    }
}
