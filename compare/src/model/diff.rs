//! What differs between two maps of one guard (request Q-1).

use super::answer::Answer;
use super::map::Span;
use super::shape::shape_of;
use std::collections::BTreeSet;

/// The least room for the rows: 133 of five numbers.
pub const DIFF_ROOM: usize = 665;

/// The most numbers a map may have: 67 rows of three.
pub const MAP_MOST: usize = 201;

/// Offsets from `start` to `end`, both included, with their rights in the old
/// and in the new map.
#[derive(Clone, Copy, Debug, PartialEq, Eq)]
pub struct DiffRow {
    pub start: u64,
    pub end: u64,
    pub old: u64,
    pub new: u64,
}

impl DiffRow {
    /// How many rights bits differ, looked at one by one.
    pub fn bits(&self) -> u64 {
        let bit = |word: u64, place: u32| word >> place & 1;
        let differs = |place: &u32| bit(self.old, *place) != bit(self.new, *place);
        (0..64).filter(differs).count() as u64
    }

    /// The row as it is lent.
    pub fn numbers(&self) -> [u64; 5] {
        [self.start, self.end, self.old, self.new, self.bits()]
    }
}

/// Fills the room with what differs and says how many numbers of it are used.
pub fn diff(guard: u32, before: &[u64], after: &[u64], room: &mut [u64]) -> (Answer, usize) {
    let fits = |map: &[u64]| map.len() <= MAP_MOST && map.len().is_multiple_of(3);
    if room.len() < DIFF_ROOM || !fits(before) || !fits(after) {
        return (Answer::WrongLength, 0);
    }
    match compared(guard, before, after) {
        Some(rows) => (Answer::Done(0), put_rows(&rows, room)),
        None => (Answer::NoTarget, 0),
    }
}

/// The rows between two maps in numbers; none if there is no such guard or
/// one is no map of its window.
pub fn compared(guard: u32, before: &[u64], after: &[u64]) -> Option<Vec<DiffRow>> {
    let window = shape_of(guard)?.window;
    Some(diff_rows(
        &spans_of(before, window)?,
        &spans_of(after, window)?,
    ))
}

/// Puts the rows at the front of the room and counts the numbers used.
pub fn put_rows(rows: &[DiffRow], room: &mut [u64]) -> usize {
    for (place, row) in room.chunks_exact_mut(5).zip(rows) {
        place.copy_from_slice(&row.numbers());
    }
    5 * rows.len()
}

/// The rows of a map in numbers, if they cover the window one after another.
/// Their rights may be anything.
pub fn spans_of(numbers: &[u64], window: u64) -> Option<Vec<Span>> {
    let (mut spans, mut next) = (Vec::new(), 0);
    for row in numbers.chunks_exact(3) {
        let (start, end, rights) = (row[0], row[1], row[2]);
        if start != next || end < start {
            return None;
        }
        // After the last number of all, no row can start and no window end.
        next = end.checked_add(1)?;
        spans.push(Span { start, end, rights });
    }
    (next == window).then_some(spans)
}

/// What differs between two maps that cover the same window.
pub fn diff_rows(old: &[Span], new: &[Span]) -> Vec<DiffRow> {
    let mut rows = joined(pieces(old, new));
    rows.retain(|row| row.old != row.new);
    rows
}

/// The window cut wherever a row of either map starts or ends. As each map
/// covers all of it, every start but 0 comes right after an end, so both in
/// rising order make the pieces.
pub fn pieces(old: &[Span], new: &[Span]) -> Vec<DiffRow> {
    let both = || old.iter().chain(new);
    let starts: BTreeSet<u64> = both().map(|span| span.start).collect();
    let ends: BTreeSet<u64> = both().map(|span| span.end).collect();
    let piece = |(start, end)| DiffRow {
        start,
        end,
        old: rights_at(old, start),
        new: rights_at(new, start),
    };
    starts.into_iter().zip(ends).map(piece).collect()
}

/// The rights at an offset that the map covers.
fn rights_at(map: &[Span], offset: u64) -> u64 {
    map[map.partition_point(|span| span.end < offset)].rights
}

/// The pieces with neighbours of the same pair of words made one.
pub fn joined(pieces: Vec<DiffRow>) -> Vec<DiffRow> {
    let mut rows: Vec<DiffRow> = Vec::new();
    for piece in pieces {
        match rows.last_mut() {
            Some(last) if (last.old, last.new) == (piece.old, piece.new) => last.end = piece.end,
            _ => rows.push(piece),
        }
    }
    rows
}
