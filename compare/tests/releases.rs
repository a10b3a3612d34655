//! What differs between two releases: the text and the binary.

use compare::generate::damage::damaged;
use compare::generate::lines::script;
use compare::harness::random::Random;
use compare::model::diff::{diff, DiffRow};
use compare::parts::lines::filter;
use compare::text::{put_diff, releases, BadLine};
use std::path::PathBuf;
use std::process::{Command, Output};

/// W11 and W12 of guard 2, with spaces for tabs.
const W11: &str = "reg risaf 2 00000044 w 00010000 s p\nreg risaf 2 00000048 w 0001ffff s p\n\
                   reg risaf 2 0000004c w 00040006 s p\nreg risaf 2 00000040 w 00000001 s p\n";
const W12: &str = "reg risaf 2 00000054 w 00010000 s p\nreg risaf 2 00000058 w 00010fff s p\n\
                   reg risaf 2 00000050 w 00001121 s p\n";

fn tabs(text: &str) -> Vec<u8> {
    text.replace(' ', "\t").into_bytes()
}

/// What is printed, with spaces for tabs.
fn printed(old: &str, new: &str) -> String {
    let text = releases(&tabs(old), &tabs(new)).unwrap();
    String::from_utf8(text).unwrap().replace('\t', " ")
}

/// Sheets of all guards, empty but for those given.
fn sheets(given: &[(u32, &str)]) -> String {
    let numbers = (1..=9).chain(11..=15).chain(21..=23);
    let sheet = |number| {
        let found = given.iter().find(|(guard, _)| *guard == number);
        let lines = found.map_or("", |(_, lines)| lines);
        format!("guard {number}\n{lines}end {}\n", lines.lines().count())
    };
    numbers.map(sheet).collect()
}

#[test]
fn a_row() {
    let row = |start, end, old, new| {
        let mut out = b"x\n".to_vec();
        put_diff(
            &mut out,
            &DiffRow {
                start,
                end,
                old,
                new,
            },
        );
        String::from_utf8(out).unwrap()
    };
    assert_eq!(
        row(0xAB, 0xFFFF_FFFF, 0, u64::MAX),
        "x\ndiff\t000000ab\tffffffff\t0000000000000000\tffffffffffffffff\t64\n"
    );
    assert_eq!(
        row(0x1000, 0x1FFF, 0x0123_4567_89AB_CDEF, 0x0123_4567_89AB_CDEE),
        "x\ndiff\t00001000\t00001fff\t0123456789abcdef\t0123456789abcdee\t1\n"
    );
}

#[test]
fn like_releases() {
    let same = sheets(&[]);
    assert!(same.starts_with("guard 1\nend 0\nguard 2\n"));
    assert!(same.contains("guard 9\nend 0\nguard 11\n"));
    assert!(same.contains("guard 15\nend 0\nguard 21\n"));
    assert_eq!(same.matches("guard").count(), 17);
    assert_eq!(printed("", ""), same);
    assert_eq!(printed(W11, W11), same);
    assert_eq!(printed("", "map 2\nmem 2 00000000 4 r 1 s p\n"), same);
    assert_eq!(printed(&format!("{W11}reset\n"), ""), same);
}

#[test]
fn marked_examples() {
    let line = "diff 00010000 0001ffff 8282000000000000 0000000084868486 14\n";
    assert_eq!(printed("", W11), sheets(&[(2, line)]));
    let line = "diff 00010000 0001ffff 0000000084868486 8282000000000000 14\n";
    assert_eq!(printed(W11, "reset\n"), sheets(&[(2, line)]));
    let w12 = format!("{W11}{W12}");
    let line = "diff 00010000 00010fff 0000000084868486 0000000000840084 6\n";
    assert_eq!(printed(W11, &w12), sheets(&[(2, line)]));
    let lines = "diff 00010000 00010fff 8282000000000000 0000000000840084 8\n\
                 diff 00011000 0001ffff 8282000000000000 0000000084868486 14\n";
    assert_eq!(printed("", &w12), sheets(&[(2, lines)]));
    // Two guards; the same region as guard 2's, in guard 14.
    let both = format!("{W11}{}", W11.replace("risaf 2", "risaf 14"));
    let line = "diff 00010000 0001ffff 8282000000000000 0000000084868486 14\n";
    assert_eq!(printed("", &both), sheets(&[(2, line), (14, line)]));
    assert_eq!(printed(W11, &both), sheets(&[(14, line)]));
    // A granule of guard 21 open to nonsecure reads.
    let ahb = "reg risaf 21 0000004c w 00000001 s p\nreg risaf 21 00000040 w 00000001 s p\n";
    let line = "diff 00000000 000001ff ffff000000000000 0000000000ff00ff 32\n";
    assert_eq!(printed("", ahb), sheets(&[(21, line)]));
}

#[test]
fn refused_events_are_run_on() {
    let refused = "mem 2 00000000 4 r 2 s p\nmem 99 00000000 4 r 2 s p\nmap 10\n\
                   reg risaf 2 00000044 w 00030000 n p\nreg rifsc 00000004 r 00000000 s p\n";
    let line = "diff 00010000 0001ffff 8282000000000000 0000000084868486 14\n";
    assert_eq!(
        printed(refused, &format!("{refused}{W11}{refused}")),
        sheets(&[(2, line)])
    );
}

#[test]
fn bad_lines_of_both() {
    let bad = |old: &str, new: &str| {
        let lines = releases(&tabs(old), &tabs(new)).unwrap_err();
        let pair = |bad: &BadLine| (bad.file, bad.line);
        lines.iter().map(pair).collect::<Vec<_>>()
    };
    assert_eq!(bad("reset", ""), [(1, 1)]);
    assert_eq!(bad("", "reset\nreset"), [(2, 2)]);
    assert_eq!(bad("\n", ""), [(1, 1)]);
    assert_eq!(
        bad("reset\n\nreset\nmap 02\nmap 2\r\n", "x\nreset\nreset\ny"),
        [(1, 2), (1, 4), (1, 5), (2, 1), (2, 4)]
    );
    let long = format!("{}\nreset\n", "reset".repeat(14));
    assert_eq!(bad(&long, &long), [(1, 1), (2, 1)]);
    // `diff` is no input line.
    let line = "diff 00010000 0001ffff 8282000000000000 0000000084868486 14\n";
    assert_eq!(bad("", &format!("reset\ndiff 2\n{line}")), [(2, 2), (2, 3)]);
}

/// The map that the filter prints at the end of a script.
fn map_after(script: &[u8], guard: u32) -> Vec<u64> {
    let asked = [script, format!("map\t{guard}\n").as_bytes()].concat();
    let text = String::from_utf8(filter(&asked)).unwrap();
    let (_, sheet) = text.rsplit_once("guard\t").unwrap();
    let spans = sheet.lines().filter_map(|line| line.strip_prefix("span\t"));
    let fields = spans.flat_map(|span| span.split('\t'));
    fields
        .map(|field| u64::from_str_radix(field, 16).unwrap())
        .collect()
}

#[test]
fn random_scripts_give_what_differs_between_their_maps() {
    let mut random = Random::new(1);
    let mut rows = 0;
    for round in 0..10 {
        let old = script(&mut random, 400);
        let more = script(&mut random, 10 * round);
        let new = [&old[..], &more].concat();
        let mut expected = String::new();
        for guard in (1..=9).chain(11..=15).chain(21..=23) {
            let mut room = [0; 665];
            let (before, after) = (map_after(&old, guard), map_after(&new, guard));
            let (answer, used) = diff(guard, &before, &after, &mut room);
            assert_eq!(answer.number(), 0);
            expected += &format!("guard\t{guard}\n");
            for row in room[..used].chunks(5) {
                let (start, end, old, new, bits) = (row[0], row[1], row[2], row[3], row[4]);
                expected +=
                    &format!("diff\t{start:08x}\t{end:08x}\t{old:016x}\t{new:016x}\t{bits}\n");
            }
            expected += &format!("end\t{}\n", used / 5);
            rows += used / 5;
        }
        assert_eq!(releases(&old, &new), Ok(expected.into_bytes()));
    }
    assert!(rows > 50, "{rows} rows");
}

#[test]
fn random_scripts_have_the_bad_lines_that_the_filter_finds() {
    let mut random = Random::new(1);
    for _ in 0..20 {
        let scripts = [(); 2].map(|()| {
            let lines = script(&mut random, 100);
            damaged(&mut random, &lines)
        });
        let mut expected = Vec::new();
        for (file, script) in (1..).zip(&scripts) {
            let text = String::from_utf8(filter(script)).unwrap();
            let bad = text.lines().filter_map(|line| line.strip_prefix("bad\t"));
            expected.extend(bad.map(|line| BadLine {
                file,
                line: line.parse().unwrap(),
            }));
        }
        assert_eq!(releases(&scripts[0], &scripts[1]), Err(expected));
    }
}

/// A file of this test alone.
fn file(name: &str, text: &str) -> PathBuf {
    let path = PathBuf::from(env!("CARGO_TARGET_TMPDIR")).join(name);
    std::fs::write(&path, tabs(text)).unwrap();
    path
}

fn differ(files: &[&PathBuf]) -> (Output, String) {
    let mut command = Command::new(env!("CARGO_BIN_EXE_differ"));
    let output = command.args(files).output().unwrap();
    let told = String::from_utf8(output.stderr.clone()).unwrap();
    (output, told)
}

#[test]
fn the_binary_prints_the_sheets() {
    let (old, new) = (file("good-old", "reset\n"), file("good-new", W11));
    let (output, told) = differ(&[&old, &new]);
    assert!(output.status.success());
    assert_eq!(told, "");
    assert_eq!(output.stdout, releases(b"", &tabs(W11)).unwrap());
}

#[test]
fn the_binary_names_what_is_wrong() {
    let (old, new) = (
        file("bad-old", "x\nreset\n"),
        file("bad-new", "reset\ny\nz"),
    );
    let (output, told) = differ(&[&old, &new]);
    let (one, two) = (old.display(), new.display());
    let expected = format!("{one}: line 1 is bad\n{two}: line 2 is bad\n{two}: line 3 is bad\n");
    assert_eq!(told, expected);
    assert_eq!((output.status.code(), output.stdout.len()), (Some(1), 0));

    let (missing, place) = (old.with_file_name("missing"), old.with_file_name("."));
    let (output, told) = differ(&[&missing, &place]);
    let named: Vec<&str> = told.lines().collect();
    assert!(named[0].starts_with(&format!("{}: cannot be read: ", missing.display())));
    assert!(named[1].starts_with(&format!("{}: cannot be read: ", place.display())));
    assert_eq!((output.status.code(), output.stdout.len()), (Some(1), 0));

    for files in [&[][..], &[&old], &[&old, &new, &new]] {
        let (output, told) = differ(files);
        assert!(told.contains("differ OLD NEW"));
        assert_eq!((output.status.code(), output.stdout.len()), (Some(2), 0));
    }
}

/// The comparison of the program `releases`, with the second program's own in its place.
#[test]
fn the_comparison_finds_nothing_in_differ() {
    let differ = std::path::Path::new(env!("CARGO_BIN_EXE_differ"));
    let told = compare::parts::releases::releases(
        differ,
        &mut compare::harness::random::Random::new(5),
        40,
    );
    assert!(told.is_ok(), "{}", told.unwrap_err());
}
