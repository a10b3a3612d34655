//! Events from reset on: guards programmed whole, swept and mapped, locks,
//! single events, and all registers of a block read back.

use super::aim::{event, guard_number, sweep};
use super::registers::{offsets, region_offset};
use super::states::dense_state;
use crate::harness::random::Random;
use crate::harness::words::{region_at, REGION_WORDS};
use crate::model::{Block, Direction, Event, RegisterAccess, GUARDS, SHAPES};
use std::collections::VecDeque;

#[derive(Clone, Copy, Debug)]
pub enum Step {
    Event(Event),
    /// The map of a guard.
    Map(u32),
}

/// What is told next, and what is left of the last thing begun.
#[derive(Default)]
pub struct Story {
    queue: VecDeque<Step>,
    /// The place of the guard that is programmed and swept for now.
    guard: usize,
}

impl Story {
    /// Begins with the controller and two guards programmed.
    pub fn new(random: &mut Random) -> Story {
        let mut story = Story::default();
        for _ in 0..2 {
            story.guard = random.below(GUARDS);
            story.tell(program_guard(random, story.guard));
        }
        story.tell(program_rifsc(random));
        story
    }

    /// The next step on a state.
    pub fn next(&mut self, random: &mut Random, words: &[u32]) -> Step {
        loop {
            if let Some(step) = self.queue.pop_front() {
                return step;
            }
            self.begin(random, words);
        }
    }

    fn begin(&mut self, random: &mut Random, words: &[u32]) {
        match random.below(1_000) {
            0 => self.queue.push_back(Step::Event(Event::Reset)),
            1..=7 => {
                self.guard = random.below(GUARDS);
                self.tell(program_guard(random, self.guard));
            }
            8..=9 => self.tell(program_rifsc(random)),
            10..=15 => self.tell(sweep(random, words, self.guard)),
            16..=19 => self.tell(read_back(self.block(random))),
            20..=24 => self.tell(lock(SHAPES[self.guard].number)),
            25 => self
                .queue
                .extend(SHAPES.iter().map(|shape| Step::Map(shape.number))),
            26..=49 => self.queue.push_back(Step::Map(guard_number(random))),
            _ => self.queue.push_back(Step::Event(event(random, words))),
        }
    }

    fn tell(&mut self, events: Vec<Event>) {
        self.queue.extend(events.into_iter().map(Step::Event));
    }

    fn block(&self, random: &mut Random) -> Block {
        let guard = Block::Risaf(SHAPES[self.guard].number);
        random.pick(&[Block::Rifsc, Block::Iac, guard, guard])
    }
}

fn register(block: Block, offset: u32, write: Option<u32>) -> Event {
    Event::Register(RegisterAccess {
        block,
        offset,
        direction: match write {
            Some(_) => Direction::Write,
            None => Direction::Read,
        },
        data: write.unwrap_or(0),
        secure: true,
        privileged: true,
    })
}

/// Writes that make a guard's regions those of a dense state.
fn program_guard(random: &mut Random, place: usize) -> Vec<Event> {
    let words = dense_state(random);
    let block = Block::Risaf(SHAPES[place].number);
    let mut events = Vec::new();
    for region in 0..SHAPES[place].regions {
        for word in 0..REGION_WORDS {
            let data = words[region_at(place, region) + word];
            let offset = region_offset(region) + 4 * word as u32;
            events.push(register(block, offset, Some(data)));
        }
    }
    events
}

/// Writes to SECCFGR, PRIVCFGR, a few locks, and ATTR.
fn program_rifsc(random: &mut Random) -> Vec<Event> {
    let mut write = |offset, mask| {
        let data = random.word() & mask;
        register(Block::Rifsc, offset, Some(data))
    };
    let registers = (0..6).flat_map(|x| [(0x010 + 4 * x, u32::MAX), (0x030 + 4 * x, u32::MAX)]);
    let locks = [(0x050, 0x0101_0100), (0x060, 0x8080_0008)];
    let attributes = (0..13).map(|x| (0xC10 + 4 * x, u32::MAX));
    let all = registers.chain(locks).chain(attributes);
    all.map(|(offset, mask)| write(offset, mask)).collect()
}

/// Reads of all registers of a block.
fn read_back(block: Block) -> Vec<Event> {
    let offsets = offsets(block).into_iter();
    offsets
        .map(|offset| register(block, offset, None))
        .collect()
}

/// Sets a guard's lock, and RLOCK of the first region's subregion A.
fn lock(guard: u32) -> Vec<Event> {
    let block = Block::Risaf(guard);
    let rlock = region_offset(0) + 0x10;
    vec![
        register(block, 0, Some(1)),
        register(block, rlock, Some(0x3373)),
        register(block, rlock + 4, Some(0)),
    ]
}
