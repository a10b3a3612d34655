//! Wrong rules for what differs between two maps.

use super::{Change, Mutant};
use crate::harness::modelled::{Differ, Rules, MODEL};
use crate::model::diff::{compared, diff, joined, pieces, put_rows, spans_of, DiffRow, DIFF_ROOM};
use crate::model::{shape_of, Answer, Span};

const fn mutant(name: &'static str, wrong: &'static str, diff: Differ) -> Mutant {
    let change = Change::Rules(Rules { diff, ..MODEL });
    Mutant {
        name,
        wrong,
        change,
    }
}

pub const MUTANTS: &[Mutant] = &[
    mutant("diff-equal", "equal words have a row too", equal),
    mutant("diff-unjoined", "equal pairs are not joined", unjoined),
    mutant("diff-leaping", "equal pairs are joined over a gap", leaping),
    mutant("diff-new-only", "equal new words are joined", new_only),
    mutant("diff-past-end", "rows end one late", past_end),
    mutant("diff-swapped", "old and new are swapped", swapped),
    mutant("diff-old-count", "the bits of old are counted", old_count),
    mutant("diff-in-664", "664 numbers are room enough", in_664),
    mutant("diff-204", "a map may have 204 numbers", long_map),
    mutant("diff-leftover", "numbers left over are skipped", leftover),
    mutant("diff-one-short", "a map may end one early", one_short),
    mutant("diff-empty", "an empty map differs nowhere", empty),
    mutant("diff-wraps", "0 comes after 2^64 - 1", wraps),
    mutant("diff-backward", "a row may end before it starts", backward),
    mutant("diff-alike", "a map's neighbours must differ", alike),
    mutant("diff-4-first", "4 comes before 8", four_first),
    mutant("diff-cleared", "the rest of the room is made 0", cleared),
    mutant("diff-spoiled", "a refusal writes into the room", spoiled),
];

/// What a diff gives back.
type Given = (Answer, usize);

/// Other rows where there would be rows.
fn with_rows(
    (guard, before, after): (u32, &[u64], &[u64]),
    room: &mut [u64],
    rows: impl Fn(&[Span], &[Span]) -> Vec<DiffRow>,
) -> Given {
    let (answer, used) = diff(guard, before, after, &mut room.to_vec());
    match (answer, shape_of(guard)) {
        (Answer::Done(_), Some(shape)) => {
            let spans = |map| spans_of(map, shape.window).unwrap_or_default();
            (answer, put_rows(&rows(&spans(before), &spans(after)), room))
        }
        _ => (answer, used),
    }
}

fn differing(mut rows: Vec<DiffRow>) -> Vec<DiffRow> {
    rows.retain(|row| row.old != row.new);
    rows
}

fn equal(guard: u32, before: &[u64], after: &[u64], room: &mut [u64]) -> Given {
    with_rows((guard, before, after), room, |old, new| {
        joined(pieces(old, new))
    })
}

fn unjoined(guard: u32, before: &[u64], after: &[u64], room: &mut [u64]) -> Given {
    with_rows((guard, before, after), room, |old, new| {
        differing(pieces(old, new))
    })
}

fn leaping(guard: u32, before: &[u64], after: &[u64], room: &mut [u64]) -> Given {
    with_rows((guard, before, after), room, |old, new| {
        joined(differing(pieces(old, new)))
    })
}

fn new_only(guard: u32, before: &[u64], after: &[u64], room: &mut [u64]) -> Given {
    with_rows((guard, before, after), room, |old, new| {
        let mut rows = differing(joined(pieces(old, new)));
        rows.dedup_by(|row, last| {
            let joins = last.end + 1 == row.start && last.new == row.new;
            last.end = if joins { row.end } else { last.end };
            joins
        });
        rows
    })
}

/// The right rows with each row's numbers changed.
fn rewritten((answer, used): Given, room: &mut [u64], change: impl Fn(&mut [u64])) -> Given {
    room[..used].chunks_exact_mut(5).for_each(change);
    (answer, used)
}

fn past_end(guard: u32, before: &[u64], after: &[u64], room: &mut [u64]) -> Given {
    let given = diff(guard, before, after, room);
    rewritten(given, room, |row| row[1] += 1)
}

fn swapped(guard: u32, before: &[u64], after: &[u64], room: &mut [u64]) -> Given {
    diff(guard, after, before, room)
}

fn old_count(guard: u32, before: &[u64], after: &[u64], room: &mut [u64]) -> Given {
    let given = diff(guard, before, after, room);
    rewritten(given, room, |row| row[4] = u64::from(row[2].count_ones()))
}

fn in_664(guard: u32, before: &[u64], after: &[u64], room: &mut [u64]) -> Given {
    let mut wide = room.to_vec();
    wide.resize(room.len() + usize::from(room.len() == 664), 0);
    let given = diff(guard, before, after, &mut wide);
    room.copy_from_slice(&wide[..room.len()]);
    given
}

fn long_map(guard: u32, before: &[u64], after: &[u64], room: &mut [u64]) -> Given {
    let fits = |map: &[u64]| map.len() <= 204 && map.len().is_multiple_of(3);
    match compared(guard, before, after) {
        Some(rows) if room.len() >= DIFF_ROOM && fits(before) && fits(after) => {
            (Answer::Done(0), put_rows(&rows, room))
        }
        _ => diff(guard, before, after, room),
    }
}

fn leftover(guard: u32, before: &[u64], after: &[u64], room: &mut [u64]) -> Given {
    let whole = |map: &[u64]| map.len() - map.len() % 3;
    let (before, after) = (&before[..whole(before)], &after[..whole(after)]);
    diff(guard, before, after, room)
}

fn one_short(guard: u32, before: &[u64], after: &[u64], room: &mut [u64]) -> Given {
    let mended = |map: &[u64]| {
        let mut map = map.to_vec();
        if let [.., end, _] = &mut map[..] {
            let short = shape_of(guard).is_some_and(|shape| *end == shape.window - 2);
            *end += u64::from(short);
        }
        map
    };
    diff(guard, &mended(before), &mended(after), room)
}

fn empty(guard: u32, before: &[u64], after: &[u64], room: &mut [u64]) -> Given {
    match (before, after) {
        ([], map) | (map, []) => diff(guard, map, map, room),
        _ => diff(guard, before, after, room),
    }
}

/// The rows of a map that are kept.
fn kept(map: &[u64], keep: impl Fn(&[u64]) -> bool) -> Vec<u64> {
    let rows: Vec<&[u64]> = map.chunks(3).filter(|row| keep(row)).collect();
    rows.concat()
}

fn wraps(guard: u32, before: &[u64], after: &[u64], room: &mut [u64]) -> Given {
    let kept = |map| kept(map, |row| !row.starts_with(&[0, u64::MAX]));
    diff(guard, &kept(before), &kept(after), room)
}

fn backward(guard: u32, before: &[u64], after: &[u64], room: &mut [u64]) -> Given {
    let kept = |map| {
        kept(map, |row| {
            row.len() < 3 || row[0] == 0 || row[0] - 1 != row[1]
        })
    };
    diff(guard, &kept(before), &kept(after), room)
}

fn alike(guard: u32, before: &[u64], after: &[u64], room: &mut [u64]) -> Given {
    let alike = |map: &[u64]| {
        let rows: Vec<&[u64]> = map.chunks_exact(3).collect();
        rows.windows(2).any(|two| two[0][2] == two[1][2])
    };
    match diff(guard, before, after, &mut room.to_vec()) {
        (Answer::Done(_), _) if alike(before) || alike(after) => (Answer::NoTarget, 0),
        _ => diff(guard, before, after, room),
    }
}

fn four_first(guard: u32, before: &[u64], after: &[u64], room: &mut [u64]) -> Given {
    match compared(guard, before, after) {
        Some(_) => diff(guard, before, after, room),
        None => (Answer::NoTarget, 0),
    }
}

fn cleared(guard: u32, before: &[u64], after: &[u64], room: &mut [u64]) -> Given {
    let (answer, used) = diff(guard, before, after, room);
    if answer == Answer::Done(0) {
        room[used..].fill(0);
    }
    (answer, used)
}

fn spoiled(guard: u32, before: &[u64], after: &[u64], room: &mut [u64]) -> Given {
    let (answer, used) = diff(guard, before, after, room);
    if let (Answer::NoTarget, [first, ..]) = (answer, &mut room[..]) {
        *first = 0;
    }
    (answer, used)
}
