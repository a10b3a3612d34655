//! What differs between two maps: the refusals and their order.

mod common;

use common::{GUARD_NUMBERS, NO_GUARDS};
use compare::model::diff::diff;
use compare::model::SHAPES;

/// The last offset of guard 2, and a map of it.
const LAST: u64 = 0xF_FFFF;
const MAP: [u64; 3] = [0, LAST, 5];
const ROOM: usize = 665;

/// The number that a diff gets; if it is a refusal, the room is unchanged and
/// no part of it handed back.
fn number(guard: u32, before: &[u64], after: &[u64], room: usize) -> u32 {
    let old: Vec<u64> = (7..).take(room).collect();
    let mut room = old.clone();
    let (answer, used) = diff(guard, before, after, &mut room);
    assert_eq!(answer.value(), 0);
    if answer.number() != 0 {
        assert_eq!((used, room), (0, old));
    }
    answer.number()
}

/// The number that a map of guard 2 gets, old or new, whatever the other.
fn of_map(map: &[u64]) -> u32 {
    let given = number(2, map, &MAP, ROOM);
    assert_eq!(number(2, &MAP, map, ROOM), given);
    assert_eq!(number(2, map, map, ROOM), given);
    given
}

/// A right map of guard 2 with that many rows of one offset, but the last.
fn of_rows(count: u64) -> Vec<u64> {
    let end = |row| if row + 1 == count { LAST } else { row };
    (0..count).flat_map(|row| [row, end(row), row]).collect()
}

#[test]
fn room() {
    for room in [665, 666, 1_000] {
        assert_eq!(number(2, &MAP, &[0, LAST, 6], room), 0);
    }
    // Also where no row would be needed, and before 4.
    for room in [0, 1, 5, 660, 664] {
        assert_eq!(number(2, &MAP, &MAP, room), 8);
        assert_eq!(number(10, &MAP, &MAP, room), 8);
        assert_eq!(number(2, &[], &MAP, room), 8);
        assert_eq!(number(2, &MAP, &[0, LAST + 1, 5], room), 8);
    }
}

#[test]
fn counts() {
    for rows in [1, 2, 66, 67] {
        assert_eq!(of_map(&of_rows(rows)), 0);
    }
    // Right but for their count.
    for rows in [68, 69, 100] {
        assert_eq!(of_map(&of_rows(rows)), 8);
    }
    let many = of_rows(100);
    for count in [1, 2, 4, 5, 199, 200, 202, 203, 204] {
        assert_eq!(of_map(&many[..count]), 8);
        // Before 4.
        assert_eq!(number(0, &many[..count], &MAP, ROOM), 8);
        assert_eq!(number(16, &MAP, &many[..count], ROOM), 8);
        assert_eq!(number(2, &many[..count], &[], ROOM), 8);
        assert_eq!(number(2, &[1, 0, 0], &many[..count], ROOM), 8);
    }
    // One or two numbers after a right map.
    assert_eq!(of_map(&[0, LAST, 5, 6]), 8);
    assert_eq!(of_map(&[0, LAST, 5, 6, 7]), 8);
}

#[test]
fn guards() {
    for guard in NO_GUARDS {
        assert_eq!(number(guard, &MAP, &MAP, ROOM), 4);
        assert_eq!(number(guard, &[], &[], ROOM), 4);
    }
    // A map of one guard is one of another just if their windows are alike.
    for (guard, mine) in GUARD_NUMBERS.into_iter().zip(&SHAPES) {
        for other in &SHAPES {
            let map = [0, other.window - 1, 5];
            let expected = if other.window == mine.window { 0 } else { 4 };
            assert_eq!(number(guard, &map, &map, ROOM), expected);
        }
    }
}

#[test]
fn starts_and_ends() {
    let no_maps: &[&[u64]] = &[
        &[],
        // The first start.
        &[1, LAST, 5],
        &[u64::MAX, LAST, 5],
        // The last end.
        &[0, LAST - 1, 5],
        &[0, LAST + 1, 5],
        &[0, 0, 5],
        &[0, 9, 5, 10, LAST - 1, 6],
        &[0, 9, 5, 10, LAST + 1, 6],
        &[0, LAST, 5, LAST + 1, LAST + 1, 6],
        // A gap, an overlap, the same row twice, the wrong order.
        &[0, 9, 5, 11, LAST, 6],
        &[0, 9, 5, 9, LAST, 6],
        &[0, LAST, 5, 0, LAST, 5],
        &[10, LAST, 6, 0, 9, 5],
        // An end below its start: one row, and one between others.
        &[0, 9, 5, 10, 9, 6, 10, LAST, 7],
        &[0, 9, 5, 10, 8, 6, 9, LAST, 7],
        &[0, LAST, 5, LAST + 1, LAST, 6],
    ];
    for map in no_maps {
        assert_eq!(of_map(map), 4, "{map:x?}");
    }
}

#[test]
fn extremes() {
    const MAX: u64 = u64::MAX;
    let no_maps: &[&[u64]] = &[
        &[0, MAX, 5],
        &[MAX, MAX, MAX],
        &[0, 0, 0],
        // 2^64 - 1 has nothing after it, 0 nothing before it.
        &[0, MAX, 5, 0, LAST, 6],
        &[0, LAST, 5, LAST + 1, MAX, 6, 0, LAST, 7],
        &[0, 9, 5, 10, MAX, 6, 0, LAST, 7],
        // What 32 bits alone would not tell.
        &[0, 1 << 32 | LAST, 5],
        &[1 << 32, LAST, 5],
        &[0, 9, 5, 1 << 32 | 10, LAST, 6],
        &[0, 1 << 63 | LAST, 5],
    ];
    for map in no_maps {
        assert_eq!(of_map(map), 4, "{map:x?}");
    }
    // The largest window: 2^32 is past it.
    let end = |end| number(4, &[0, end, 0], &[0, end, MAX], ROOM);
    assert_eq!(end(0xFFFF_FFFF), 0);
    assert_eq!(end(0xFFFF_FFFE), 4);
    assert_eq!(end(1 << 32), 4);
    // Small rows at either end of the window, and rights of all kinds.
    assert_eq!(of_map(&[0, 0, MAX, 1, LAST - 1, MAX, LAST, LAST, 0]), 0);
}

#[test]
fn neighbours_of_equal_rights_are_taken() {
    assert_eq!(of_map(&[0, 9, 5, 10, LAST, 5]), 0);
    assert_eq!(of_map(&[0, 9, 0, 10, 19, 0, 20, LAST, 0]), 0);
}
