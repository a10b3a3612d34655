//! The line program: good lines, bad lines, sheets, line ends, blocks.

use compare::text::run;
use std::io::{self, Read};

/// The whole output for an input, tabs shown as spaces in both.
fn output(input: &str) -> String {
    let mut out = Vec::new();
    run(input.replace(' ', "\t").as_bytes(), &mut out).unwrap();
    String::from_utf8(out).unwrap().replace('\t', " ")
}

#[test]
fn the_pages_example() {
    assert_eq!(
        output("mem 2 00000000 4 r 1 s p\nmap 2\n"),
        "ans 0 00000000\nguard 2\nspan 00000000 000fffff 8282000000000000\nend 1\n"
    );
}

#[test]
fn every_kind_of_line() {
    let lines = [
        ("reset", "ans 0 00000000"),
        ("reg rifsc 00000fb4 r 00000000 n u", "ans 0 77ffffff"),
        ("reg iac 00000370 r ffffffff n u", "ans 0 77ffffff"),
        ("reg risaf 14 00000048 r 00000000 n u", "ans 0 00000fff"),
        ("reg risaf 10 00000048 r 00000000 n u", "ans 4 00000000"),
        (
            "reg risaf 4294967295 00000001 w 00000000 s p",
            "ans 4 00000000",
        ),
        ("per 0 x n u", "ans 7 00000000"),
        ("per 0 w n u", "ans 0 00000000"),
        ("per 4294967295 r n u", "ans 4 00000000"),
        ("mem 2 00000001 1 w 7 s p", "ans 0 00000000"),
        ("mem 2 00100000 4 w 7 s p", "ans 6 00000000"),
        ("mem 2 00100000 4 w 4294967295 s p", "ans 4 00000000"),
        ("dma 0 2 00000000 4 r", "ans 1 00000001"),
        ("mem 2 00000000 4 r 1 n p", "ans 1 00000001"),
        ("mem 2 00000000 4 r 1 s u", "ans 1 00000002"),
        ("mem 2 00000000 4 r 2 s p", "ans 1 00000003"),
        ("reg iac 00000000 r 00000000 n u", "ans 1 00000000"),
        ("dma 13 2 00000000 4 r", "ans 4 00000000"),
        ("map 10", "ans 4 00000000"),
        ("map 4294967295", "ans 4 00000000"),
        ("reg rifsc 00000004 r 00000000 n u", "ans 3 00000000"),
        ("reg rifsc 00000c00 w 00000101 s p", "ans 0 00000000"),
        ("reg rifsc 00000c00 w 00000101 s p", "ans 2 00000000"),
        ("reg rifsc 00000c00 r 00000000 s p", "ans 0 00000111"),
        ("mem 2 00000001 2 w 7 s p", "ans 5 00000000"),
    ];
    let (asked, expected): (Vec<_>, Vec<_>) = lines.into_iter().unzip();
    assert_eq!(
        output(&(asked.join("\n") + "\n")),
        expected.join("\n") + "\n"
    );
}

#[test]
fn a_sheet_of_three_spans() {
    let input = "reg risaf 2 00000044 w 00010000 s p\nreg risaf 2 00000048 w 0001ffff s p\n\
                 reg risaf 2 0000004c w 00040006 s p\nreg risaf 2 00000040 w 00000001 s p\n\
                 map 2\nmap 6\n";
    let expected = "ans 0 00000000\n".repeat(4)
        + "guard 2\nspan 00000000 0000ffff 8282000000000000\n\
           span 00010000 0001ffff 0000000084868486\n\
           span 00020000 000fffff 8282000000000000\nend 3\n\
           guard 6\nspan 00000000 ffffffff 8282000000000000\nend 1\n";
    assert_eq!(output(input), expected);
}

const BAD_LINES: [&str; 48] = [
    "",
    " ",
    "Reset",
    "reset ",
    " reset",
    "resets",
    "rese",
    "reset\r",
    "map",
    "map ",
    "map  2",
    "map 02",
    "map 2 ",
    "map 2 2",
    "map +2",
    "map -2",
    "map 4294967296",
    "map 99999999999999999999999999",
    "map 00",
    "map x",
    "mapp 2",
    "ma 2",
    "mem 2 00000000 4 x 1 s p",
    "mem 2 00000000 4 r 1 s",
    "mem 2 00000000 4 r 1 s p p",
    "mem 2 00000000 4 r 1 p s",
    "mem 2 0000000 4 r 1 s p",
    "mem 2 000000000 4 r 1 s p",
    "mem 2 0000000A 4 r 1 s p",
    "mem 2 0000000g 4 r 1 s p",
    "mem 2 0x000000 4 r 1 s p",
    "mem 2 00000000 04 r 1 s p",
    "mem 2 00000000 4 rr 1 s p",
    "mem 2 00000000 4 r 1 ss p",
    "mem 2 00000000 4 R 1 s p",
    "mem  00000000 4 r 1 s p",
    "per 0 f n u",
    "per 0 r n",
    "dma 0 2 00000000 4 x",
    "dma 0 2 00000000 4 r s p",
    "reg rifsc 00000000 r s p",
    "reg rifsc 1 00000000 r 00000000 s p",
    "reg risaf 00000000 r 00000000 s p",
    "reg risaf 01 00000000 r 00000000 s p",
    "reg risaf2 00000000 r 00000000 s p",
    "reg iacc 00000000 r 00000000 s p",
    "reg rif 00000000 r 00000000 s p",
    "reg rifsc 00000000 x 00000000 s p",
];

#[test]
fn bad_lines_are_counted_and_change_nothing() {
    let fault = "mem 2 00000010 4 r 2 s p";
    let fault_address = "reg risaf 2 00000024 r 00000000 s p";
    let input = format!("{fault}\n{}\n{fault_address}\n", BAD_LINES.join("\n"));
    let bad: String = (2..)
        .zip(BAD_LINES)
        .map(|(n, _)| format!("bad {n}\n"))
        .collect();
    assert_eq!(
        output(&input),
        format!("ans 1 00000003\n{bad}ans 0 00000010\n")
    );
}

#[test]
fn spaces_do_not_part_fields() {
    let mut out = Vec::new();
    run(&b"map 2\nper\t0 \tr\tn\tu\nmap\t10\n"[..], &mut out).unwrap();
    assert_eq!(out, b"bad\t1\nbad\t2\nans\t4\t00000000\n");
}

#[test]
fn ends_of_input() {
    assert_eq!(output(""), "");
    assert_eq!(output("\n"), "bad 1\n");
    assert_eq!(output("reset"), "bad 1\n");
    assert_eq!(output("reset\nreset"), "ans 0 00000000\nbad 2\n");
    assert_eq!(output("reset\n\n"), "ans 0 00000000\nbad 2\n");
    assert_eq!(output(&"x".repeat(300_000)), "bad 1\n");
}

#[test]
fn long_lines_are_one_bad_line_each() {
    for length in [64, 65, 66, 1_000, 65_535, 65_536, 65_537, 200_000] {
        let input = format!("{}\nreset\n", "reset".repeat(length));
        assert_eq!(output(&input), "bad 1\nans 0 00000000\n");
    }
}

/// Hands its bytes out a few at a time.
struct Trickle<'a>(&'a [u8], usize);

impl Read for Trickle<'_> {
    fn read(&mut self, buffer: &mut [u8]) -> io::Result<usize> {
        let length = self.1.min(self.0.len()).min(buffer.len());
        buffer[..length].copy_from_slice(&self.0[..length]);
        self.0 = &self.0[length..];
        Ok(length)
    }
}

#[test]
fn blocks_do_not_show() {
    let long = "y".repeat(130);
    let piece =
        format!("reset\nmap\t8\n{long}\nper\t1\tr\tn\tu\n\nmem\t2\t00000000\t4\tr\t1\ts\tp\n");
    let input = piece.repeat(1_000) + "reset";
    let mut whole = Vec::new();
    run(input.as_bytes(), &mut whole).unwrap();
    for step in [1, 7, 64, 65, 4_096, 65_536] {
        let mut parts = Vec::new();
        run(Trickle(input.as_bytes(), step), &mut parts).unwrap();
        assert!(parts == whole, "step {step}");
    }
    let last = String::from_utf8(whole).unwrap();
    assert!(last.ends_with("bad\t6001\n"));
    assert_eq!(
        last.lines().filter(|line| line.starts_with("bad")).count(),
        2_001
    );
}
