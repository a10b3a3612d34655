//! Wrong readings of lines: the script is changed before it is read.

use super::{Change, Mutant};
use crate::parts::lines::{filter, Filter};

const fn mutant(name: &'static str, wrong: &'static str, filter: Filter) -> Mutant {
    Mutant {
        name,
        wrong,
        change: Change::Lines(filter),
    }
}

pub const MUTANTS: &[Mutant] = &[
    mutant("feed-optional", "a last line needs no feed", feed_optional),
    mutant("upper-case", "capitals are read too", upper_case),
    mutant("crlf", "a return before the feed is skipped", crlf),
    mutant("tabs-squeezed", "several tabs count as one", tabs_squeezed),
    mutant(
        "empty-skipped",
        "empty lines are not counted",
        empty_skipped,
    ),
    mutant("long-split", "a long line is read as several", long_split),
    mutant(
        "zeros-skipped",
        "decimals may have leading zeros",
        zeros_skipped,
    ),
    mutant(
        "numbers-wrap",
        "large decimals are taken modulo 2^32",
        numbers_wrap,
    ),
];

fn feed_optional(script: &[u8]) -> Vec<u8> {
    let mut script = script.to_vec();
    if script.last().is_some_and(|&last| last != b'\n') {
        script.push(b'\n');
    }
    filter(&script)
}

fn upper_case(script: &[u8]) -> Vec<u8> {
    filter(&script.to_ascii_lowercase())
}

/// The filter on the lines as changed, feeds and all.
fn by_line(script: &[u8], change: impl Fn(&[u8]) -> Vec<u8>) -> Vec<u8> {
    let lines = script.split_inclusive(|&byte| byte == b'\n');
    let changed: Vec<Vec<u8>> = lines.map(change).collect();
    filter(&changed.concat())
}

fn crlf(script: &[u8]) -> Vec<u8> {
    by_line(script, |line| match line {
        [body @ .., b'\r', b'\n'] => [body, b"\n"].concat(),
        _ => line.to_vec(),
    })
}

fn tabs_squeezed(script: &[u8]) -> Vec<u8> {
    let mut script = script.to_vec();
    script.dedup_by(|second, first| *second == b'\t' && *first == b'\t');
    filter(&script)
}

fn empty_skipped(script: &[u8]) -> Vec<u8> {
    by_line(script, |line| match line {
        b"\n" => Vec::new(),
        _ => line.to_vec(),
    })
}

fn long_split(script: &[u8]) -> Vec<u8> {
    by_line(script, |line| {
        let pieces: Vec<&[u8]> = line.chunks(65).collect();
        pieces.join(&b'\n')
    })
}

/// The filter on lines with every decimal field changed.
fn by_decimal(script: &[u8], change: impl Fn(&str) -> String) -> Vec<u8> {
    by_line(script, |line| {
        let fields = line.split(|&byte| byte == b'\t');
        let changed = fields.map(|field| match std::str::from_utf8(field) {
            Ok(text) if text.len() != 8 && text.bytes().all(|b| b.is_ascii_digit()) => {
                change(text).into_bytes()
            }
            _ => field.to_vec(),
        });
        changed.collect::<Vec<_>>().join(&b'\t')
    })
}

fn zeros_skipped(script: &[u8]) -> Vec<u8> {
    by_decimal(script, |digits| match digits.trim_start_matches('0') {
        "" if digits.is_empty() => String::new(),
        "" => "0".to_string(),
        rest => rest.to_string(),
    })
}

fn numbers_wrap(script: &[u8]) -> Vec<u8> {
    by_decimal(script, |digits| match digits.parse::<u128>() {
        Ok(number) if number > u128::from(u32::MAX) => (number as u32).to_string(),
        _ => digits.to_string(),
    })
}
