//! Prints answers, bad lines, map sheets and sheets of what differs.

use crate::model::diff::DiffRow;
use crate::model::{Answer, Span};

/// The lowercase hex digits of a number, as many as `N`.
fn hex<const N: usize>(number: u64) -> [u8; N] {
    std::array::from_fn(|place| {
        let nibble = number >> (4 * (N - 1 - place)) & 0xF;
        b"0123456789abcdef"[nibble as usize]
    })
}

fn put_decimal(out: &mut Vec<u8>, mut number: u64) {
    let mut digits = [0; 20];
    let mut first = digits.len();
    loop {
        first -= 1;
        digits[first] = b'0' + (number % 10) as u8;
        number /= 10;
        if number == 0 {
            break;
        }
    }
    out.extend_from_slice(&digits[first..]);
}

/// A keyword, a tab and a decimal number.
fn put_counted(out: &mut Vec<u8>, keyword: &[u8], number: u64) {
    out.extend_from_slice(keyword);
    out.push(b'\t');
    put_decimal(out, number);
    out.push(b'\n');
}

pub fn put_answer(out: &mut Vec<u8>, answer: Answer) {
    let mut line = *b"ans\t0\t00000000\n";
    line[4] += answer.number() as u8;
    line[6..14].copy_from_slice(&hex::<8>(u64::from(answer.value())));
    out.extend_from_slice(&line);
}

pub fn put_bad(out: &mut Vec<u8>, line_number: u64) {
    put_counted(out, b"bad", line_number);
}

pub fn put_sheet(out: &mut Vec<u8>, guard: u32, spans: &[Span]) {
    put_counted(out, b"guard", u64::from(guard));
    for span in spans {
        let mut line = *b"span\t00000000\t00000000\t0000000000000000\n";
        line[5..13].copy_from_slice(&hex::<8>(span.start));
        line[14..22].copy_from_slice(&hex::<8>(span.end));
        line[23..39].copy_from_slice(&hex::<16>(span.rights));
        out.extend_from_slice(&line);
    }
    put_counted(out, b"end", spans.len() as u64);
}

/// A line of what differs.
pub fn put_diff(out: &mut Vec<u8>, row: &DiffRow) {
    let mut line = *b"diff\t00000000\t00000000\t0000000000000000\t0000000000000000\t";
    line[5..13].copy_from_slice(&hex::<8>(row.start));
    line[14..22].copy_from_slice(&hex::<8>(row.end));
    line[23..39].copy_from_slice(&hex::<16>(row.old));
    line[40..56].copy_from_slice(&hex::<16>(row.new));
    out.extend_from_slice(&line);
    put_decimal(out, row.bits());
    out.push(b'\n');
}

/// What differs in one guard, in the form of a map's sheet.
pub fn put_diff_sheet(out: &mut Vec<u8>, guard: u32, rows: &[DiffRow]) {
    put_counted(out, b"guard", u64::from(guard));
    for row in rows {
        put_diff(out, row);
    }
    put_counted(out, b"end", rows.len() as u64);
}
