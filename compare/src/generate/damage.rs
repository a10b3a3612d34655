//! Damaged scripts: near misses of good lines, and worse.

use crate::harness::random::Random;

/// Fields that are wrong nearly everywhere, or right where they do not fit.
const ODD_FIELDS: [&[u8]; 37] = [
    b"",
    b"0",
    b"00",
    b"01",
    b"7",
    b"8",
    b"13",
    b"14",
    b"15",
    b"16",
    b"20",
    b"21",
    b"24",
    b"4294967295",
    b"4294967296",
    b"9999999999",
    b"18446744073709551616",
    b"-1",
    b"+1",
    b"1 ",
    b"0x000001",
    b"ABCDEF01",
    b"0000000",
    b"000000000",
    b"s",
    b"n",
    b"p",
    b"u",
    b"r",
    b"w",
    b"x",
    b"S",
    b"rifsc",
    b"iac",
    b"risaf",
    b"reset",
    b"mem",
];

/// Lengths around the longest line that may be read, and well past it.
const LENGTHS: [usize; 7] = [50, 63, 64, 65, 66, 127, 700];
const LONGEST: usize = 70_000;

/// A script with about every third line damaged, and maybe its end cut off.
pub fn damaged(random: &mut Random, script: &[u8]) -> Vec<u8> {
    if random.one_in(40) {
        return noise(random, script.len());
    }
    let mut out = Vec::with_capacity(2 * script.len());
    for line in script.split_inclusive(|&byte| byte == b'\n') {
        let start = out.len();
        out.extend_from_slice(line);
        if random.one_in(3) {
            let mut line = out.split_off(start);
            damage(random, &mut line);
            out.extend_from_slice(&line);
        }
    }
    match random.below(6) {
        0 => out.truncate(random.below(out.len() + 1)),
        // The last feed, if it is still there.
        1 => drop(out.pop()),
        _ => {}
    }
    out
}

/// Bytes of any kind, with some feeds among them.
fn noise(random: &mut Random, count: usize) -> Vec<u8> {
    let byte = |random: &mut Random| match random.below(20) {
        0 => b'\n',
        _ => random.word() as u8,
    };
    (0..count).map(|_| byte(random)).collect()
}

/// Damages one line, given with its feed.
fn damage(random: &mut Random, line: &mut Vec<u8>) {
    let at = random.below(line.len());
    let body = line.len() - 1;
    match random.below(14) {
        0 => line[at] ^= 1 << random.below(8),
        1 => line[at] = random.word() as u8,
        2 => drop(line.drain(at..body.max(at))),
        3 => line.insert(at, random.pick(b"\t\n\r 0\0\xFFx")),
        4 => drop(line.remove(at)),
        5 => double_tab(random, line),
        6 => line.insert(0, b'\n'),
        7 => lengthen(random, line),
        8 => line.make_ascii_uppercase(),
        9 => line.insert(body, b'\r'),
        10 => line.truncate(body),
        _ => odd_field(random, line),
    }
}

fn double_tab(random: &mut Random, line: &mut Vec<u8>) {
    let tabs = line.iter().enumerate().filter(|(_, &byte)| byte == b'\t');
    let tabs: Vec<usize> = tabs.map(|(at, _)| at).collect();
    if !tabs.is_empty() {
        line.insert(random.pick(&tabs), b'\t');
    }
}

/// Fills a line up to a length, at its front or its end.
fn lengthen(random: &mut Random, line: &mut Vec<u8>) {
    let length = match random.below(50) {
        0 => LONGEST,
        _ => random.pick(&LENGTHS),
    };
    let body = line.len() - 1;
    let filler = vec![random.pick(b"\t x0\0"); length.saturating_sub(body)];
    let at = random.pick(&[0, body]);
    line.splice(at..at, filler);
}

/// Puts an odd field in the place of one, or takes a field away.
fn odd_field(random: &mut Random, line: &mut Vec<u8>) {
    let body = &line[..line.len() - 1];
    let mut fields: Vec<&[u8]> = body.split(|&byte| byte == b'\t').collect();
    let at = random.below(fields.len());
    match random.below(8) {
        0 => drop(fields.remove(at)),
        1 => fields.insert(at, fields[at]),
        _ => fields[at] = random.pick(&ODD_FIELDS),
    }
    let mut damaged = fields.join(&b'\t');
    damaged.push(b'\n');
    *line = damaged;
}
