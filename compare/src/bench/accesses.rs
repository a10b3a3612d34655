//! Memory accesses: single ones, those of masters, batches.

use super::measure::{item, Item};
use crate::harness::random::Random;
use crate::harness::words::device_of;
use crate::linked::{Access, Library};
use crate::model::{Direction, Event, MasterAccess, MemoryAccess, Span};
use std::hint::black_box;

/// How many accesses a run makes.
pub const SINGLE: usize = 1_000;

/// The guard with most regions and the widest window.
pub const GUARD: u32 = 4;

/// Reads all over the window, secure and privileged.
pub fn accesses(count: usize, cid: u32) -> Vec<MemoryAccess> {
    let mut random = Random::new(1);
    let access = |_| MemoryAccess {
        guard: GUARD,
        offset: random.word() & !3,
        width: 4,
        direction: Direction::Read,
        cid,
        secure: true,
        privileged: true,
    };
    (0..count).map(access).collect()
}

/// A call for each access. Its time is divided by the count.
fn calls(name: &str, count: usize, words: &[u32], list: Vec<MemoryAccess>) -> Item {
    let mut device = device_of(words);
    let library = |library: &'static Library| {
        let (mut state, list) = (words.to_vec(), list.clone());
        move || {
            for access in &list {
                black_box(library.memory(&mut state, access));
            }
        }
    };
    let events = list.clone();
    let second = move || {
        for access in &events {
            black_box(device.apply(&Event::Memory(*access)));
        }
    };
    item(name, count, library, second)
}

pub fn memory(name: &str, words: &[u32], cid: u32) -> Item {
    calls(name, SINGLE, words, accesses(SINGLE, cid))
}

/// Every kind of asking at the start of every row.
pub fn asked(name: &str, words: &[u32]) -> Item {
    let spans = device_of(words).map(GUARD).expect("there is the guard");
    let every = |span: Span| {
        (0..64).map(move |kind: u32| MemoryAccess {
            guard: GUARD,
            offset: span.start as u32,
            width: 1,
            direction: [Direction::Read, Direction::Write][(kind >> 3 & 1) as usize],
            cid: kind & 7,
            privileged: kind >> 4 & 1 == 1,
            secure: kind >> 5 == 1,
        })
    };
    calls(name, 1, words, spans.into_iter().flat_map(every).collect())
}

pub fn master(name: &str, words: &[u32]) -> Item {
    let mut device = device_of(words);
    let access = |offset| MasterAccess {
        master: 1,
        guard: GUARD,
        offset,
        width: 4,
        direction: Direction::Read,
    };
    let list: Vec<MasterAccess> = accesses(SINGLE, 0)
        .iter()
        .map(|memory| access(memory.offset))
        .collect();
    let library = |library: &'static Library| {
        let (mut state, list) = (words.to_vec(), list.clone());
        move || {
            for access in &list {
                black_box(library.master(&mut state, access));
            }
        }
    };
    let events = list.clone();
    let second = move || {
        for access in &events {
            black_box(device.apply(&Event::Master(*access)));
        }
    };
    item(name, SINGLE, library, second)
}

/// One call for so many accesses. Its time is divided by their count.
pub fn batch(name: &str, size: usize, words: &[u32], cid: u32) -> Item {
    let mut device = device_of(words);
    let list = accesses(size, cid);
    let library = |library: &'static Library| {
        let records: Vec<Access> = list.iter().map(Access::from).collect();
        let (mut state, mut answers) = (words.to_vec(), vec![0; size]);
        move || {
            black_box(library.batch(&mut state, &records, &mut answers));
        }
    };
    let events = list.clone();
    let second = move || {
        black_box(device.batch(&events, size));
    };
    item(name, size, library, second)
}
