//! Maps, what differs between two, and the row at an offset.

use super::accesses::{GUARD, SINGLE};
use super::measure::{item, Item};
use crate::harness::random::Random;
use crate::harness::words::device_of;
use crate::linked::Library;
use crate::model::diff::{diff, DIFF_ROOM};
use crate::model::{lookup, Span};
use std::hint::black_box;

pub fn map(name: &str, words: &[u32]) -> Item {
    let device = device_of(words);
    let library = |library: &'static Library| {
        let (state, mut numbers, mut used) = (words.to_vec(), vec![0; 201], 0);
        move || {
            black_box(library.map(&state, GUARD, &mut numbers, &mut used));
        }
    };
    let second = move || drop(black_box(device.map(GUARD)));
    item(name, 1, library, second)
}

fn numbers_of(words: &[u32]) -> Vec<u64> {
    let spans = device_of(words).map(GUARD).expect("there is the guard");
    let row = |span: Span| [span.start, span.end, span.rights];
    spans.into_iter().flat_map(row).collect()
}

pub fn diffs(name: &str, before: &[u32], after: &[u32]) -> Item {
    let (old, new) = (numbers_of(before), numbers_of(after));
    let library = |library: &'static Library| {
        let (old, new) = (old.clone(), new.clone());
        let (mut room, mut used) = (vec![0; DIFF_ROOM], 0);
        move || {
            black_box(library.diff(GUARD, &old, &new, &mut room, &mut used));
        }
    };
    let (old, new, mut room) = (old.clone(), new.clone(), vec![0; DIFF_ROOM]);
    let second = move || {
        black_box(diff(GUARD, &old, &new, &mut room));
    };
    item(name, 1, library, second)
}

pub fn lookups(name: &str, words: &[u32]) -> Item {
    let numbers = numbers_of(words);
    let mut random = Random::new(1);
    let offset = |_| u64::from(random.word());
    let offsets: Vec<u64> = (0..SINGLE).map(offset).collect();
    let library = |library: &'static Library| {
        let (numbers, offsets) = (numbers.clone(), offsets.clone());
        move || {
            let mut row = [0; 3];
            for &offset in &offsets {
                black_box(library.lookup(&numbers, offset, &mut row));
            }
        }
    };
    let (numbers, offsets) = (numbers.clone(), offsets.clone());
    let second = move || {
        for &offset in &offsets {
            black_box(lookup(&numbers, offset));
        }
    };
    item(name, SINGLE, library, second)
}
