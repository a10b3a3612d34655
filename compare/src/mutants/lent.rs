//! Wrong rules for maps and lookups.

use super::{Change, Mutant};
use crate::harness::modelled::{Rules, MODEL};
use crate::model::{lookup, Answer, Device, Span};

const fn mutant(name: &'static str, wrong: &'static str, rules: Rules) -> Mutant {
    Mutant {
        name,
        wrong,
        change: Change::Rules(rules),
    }
}

pub const MUTANTS: &[Mutant] = &[
    mutant(
        "map-short",
        "the last row of a map ends one early",
        Rules {
            map: map_short,
            ..MODEL
        },
    ),
    mutant(
        "map-unmerged",
        "a map's first row is two",
        Rules {
            map: map_unmerged,
            ..MODEL
        },
    ),
    mutant(
        "map-in-200",
        "200 numbers are enough for a map",
        Rules {
            map_numbers: 200,
            ..MODEL
        },
    ),
    mutant(
        "lookup-last",
        "the last row that encloses is found",
        Rules {
            lookup: lookup_last,
            ..MODEL
        },
    ),
    mutant(
        "lookup-leftover",
        "two numbers left over are a row",
        Rules {
            lookup: lookup_leftover,
            ..MODEL
        },
    ),
];

fn map_short(device: &Device, guard: u32) -> Result<Vec<Span>, Answer> {
    let mut spans = device.map(guard)?;
    if let Some(last) = spans.last_mut() {
        last.end -= 1;
    }
    Ok(spans)
}

fn map_unmerged(device: &Device, guard: u32) -> Result<Vec<Span>, Answer> {
    let mut spans = device.map(guard)?;
    let first = spans[0];
    if first.end > 0 {
        spans[0].start = first.end;
        let end = first.end - 1;
        spans.insert(0, Span { end, ..first });
    }
    Ok(spans)
}

fn lookup_last(numbers: &[u64], offset: u64) -> &[u64] {
    let mut rows = numbers.chunks_exact(3).rev();
    let found = rows.find(|row| row[0] <= offset && offset <= row[1]);
    found.unwrap_or(&[])
}

fn lookup_leftover(numbers: &[u64], offset: u64) -> &[u64] {
    let row = lookup(numbers, offset);
    let rest = numbers.chunks_exact(3).remainder();
    match rest {
        [start, end] if row.is_empty() && *start <= offset && offset <= *end => rest,
        _ => row,
    }
}
