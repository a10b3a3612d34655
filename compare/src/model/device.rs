//! The whole state, and the events that change it.

use super::answer::Answer;
use super::event::{
    Block, Direction, Event, MasterAccess, MemoryAccess, PeripheralAccess, RegisterAccess,
};
use super::guard::Guard;
use super::iac::{Iac, IAC_INDEX, RIFSC_INDEX};
use super::map::{spans, Span};
use super::rifsc::Rifsc;
use super::rule::Asking;
use super::shape::{place_of, GUARDS, SHAPES};

#[derive(Clone, Debug, PartialEq, Eq)]
pub struct Device {
    pub rifsc: Rifsc,
    pub iac: Iac,
    /// In the order of their numbers: 1 to 9, 11 to 15, 21 to 23.
    pub guards: [Guard; GUARDS],
}

impl Device {
    pub fn reset_state() -> Device {
        Device {
            rifsc: Rifsc::reset_state(),
            iac: Iac::reset_state(),
            guards: std::array::from_fn(|place| Guard::reset_state(&SHAPES[place])),
        }
    }

    /// The guard of that number, if there is one.
    pub fn guard(&self, number: u32) -> Option<&Guard> {
        place_of(number).map(|place| &self.guards[place])
    }

    /// The guard of that number, to be loaded.
    pub fn guard_mut(&mut self, number: u32) -> Option<&mut Guard> {
        place_of(number).map(|place| &mut self.guards[place])
    }

    pub fn apply(&mut self, event: &Event) -> Answer {
        match event {
            Event::Reset => {
                *self = Device::reset_state();
                Answer::Done(0)
            }
            Event::Register(access) => self.register_access(access),
            Event::Peripheral(access) => self.peripheral_access(access),
            Event::Memory(access) => self.memory_access(access),
            Event::Master(access) => self.master_access(access),
        }
    }

    /// The interrupt line as it is held.
    pub fn interrupt_line(&self) -> bool {
        self.iac.line_up()
    }

    /// The map of a guard's window.
    pub fn map(&self, guard: u32) -> Result<Vec<Span>, Answer> {
        self.guard(guard).map(spans).ok_or(Answer::NoTarget)
    }

    /// Memory accesses one after another, with room for `places` answers.
    pub fn batch(&mut self, list: &[MemoryAccess], places: usize) -> (Answer, Vec<Answer>) {
        if places < list.len() {
            return (Answer::WrongLength, Vec::new());
        }
        let answers = list.iter().map(|access| self.memory_access(access));
        (Answer::Done(0), answers.collect())
    }

    fn register_access(&mut self, access: &RegisterAccess) -> Answer {
        let misaligned = !access.offset.is_multiple_of(4);
        let (answer, index) = match access.block {
            Block::Rifsc | Block::Iac if misaligned => return Answer::Misaligned,
            Block::Rifsc => (self.rifsc.register_access(access), RIFSC_INDEX),
            Block::Iac => (self.iac.register_access(access), IAC_INDEX),
            Block::Risaf(number) => match self.guard_mut(number) {
                None => return Answer::NoTarget,
                Some(_) if misaligned => return Answer::Misaligned,
                Some(guard) => (guard.register_access(access), guard.shape().flag),
            },
        };
        self.raise_if_refused(answer, index)
    }

    fn peripheral_access(&mut self, access: &PeripheralAccess) -> Answer {
        let answer = self.rifsc.peripheral_access(access);
        self.raise_if_refused(answer, access.peripheral)
    }

    fn memory_access(&mut self, access: &MemoryAccess) -> Answer {
        let Some(guard) = self.guard_mut(access.guard) else {
            return Answer::NoTarget;
        };
        if access.cid > 7 || !matches!(access.width, 1 | 2 | 4) {
            return Answer::NoTarget;
        }
        if !access.offset.is_multiple_of(access.width) {
            return Answer::Misaligned;
        }
        let asking = Asking {
            cid: access.cid,
            write: access.direction == Direction::Write,
            secure: access.secure,
            privileged: access.privileged,
        };
        let answer = guard.memory_access(access.offset, asking);
        let flag = guard.shape().flag;
        self.raise_if_refused(answer, flag)
    }

    fn master_access(&mut self, access: &MasterAccess) -> Answer {
        let Some(attributes) = self.rifsc.master(access.master) else {
            return Answer::NoTarget;
        };
        self.memory_access(&MemoryAccess {
            guard: access.guard,
            offset: access.offset,
            width: access.width,
            direction: access.direction,
            cid: attributes.cid,
            secure: attributes.secure,
            privileged: attributes.privileged,
        })
    }

    /// A refusal for want of rights raises its flag in the IAC.
    fn raise_if_refused(&mut self, answer: Answer, index: u32) -> Answer {
        if answer.rights_fail() {
            self.iac.raise(index);
        }
        answer
    }
}
