//! The line program against the filter, script by script.

use crate::generate::damage::damaged;
use crate::generate::lines::script;
use crate::harness::program::{Output, Program};
use crate::harness::random::Random;
use crate::harness::shrink::{blank, delete, front};
use crate::harness::tally::Tally;
use crate::text::run;
use std::fmt::Write;
use std::time::{Duration, Instant};

/// What the program is to print for a script.
pub type Filter = fn(&[u8]) -> Vec<u8>;

/// The second program's own reading.
pub fn filter(script: &[u8]) -> Vec<u8> {
    let mut printed = Vec::new();
    run(script, &mut printed).expect("memory can be read and written");
    printed
}

/// Both sides of the comparison.
pub struct Sides<'a> {
    pub program: &'a Program,
    pub filter: &'a dyn Fn(&[u8]) -> Vec<u8>,
}

/// How long a script is given to become small.
const PATIENCE: Duration = Duration::from_secs(600);

/// How many lines of a script or an output are printed.
const SHOWN: usize = 40;

impl Sides<'_> {
    fn run(&self, script: &[u8]) -> Output {
        self.program.run(script, Random::new(script.len() as u64))
    }

    pub fn differ(&self, script: &[u8]) -> bool {
        self.run(script) != Ok((self.filter)(script))
    }

    /// The smallest script it finds that still shows a difference: of as few lines as it can be, as few of them not empty, and
    /// these as short. Then whether all was tried in time.
    fn smallest(&self, script: &[u8]) -> (Vec<u8>, bool) {
        let started = Instant::now();
        let in_time = || started.elapsed() < PATIENCE;
        let shows = |lines: &[&[u8]]| in_time() && self.differ(&lines.concat());
        let lines = front(lines_of(script).collect(), shows);
        let lines = blank(delete(lines, shows), b"\n", shows);
        let bytes = delete(lines.concat(), |bytes| in_time() && self.differ(bytes));
        (bytes, in_time())
    }

    /// The smallest script and both outputs, to be read.
    fn report(&self, script: &[u8]) -> String {
        let (script, smallest) = self.smallest(script);
        let expected = (self.filter)(&script);
        let mut text = format!("script of {} bytes:\n", script.len());
        if !smallest {
            let seconds = PATIENCE.as_secs();
            writeln!(text, "(it may become smaller: given up after {seconds} s)").unwrap();
        }
        put_bytes(&mut text, &script, 0);
        match self.run(&script) {
            Ok(printed) => {
                let pairs = lines_of(&expected).zip(lines_of(&printed));
                let same = pairs.take_while(|(right, got)| right == got).count();
                let from = same.saturating_sub(3);
                writeln!(text, "expected, from line {}:", from + 1).unwrap();
                put_bytes(&mut text, &expected, from);
                writeln!(text, "printed, from line {}:", from + 1).unwrap();
                put_bytes(&mut text, &printed, from);
            }
            Err(error) => writeln!(text, "no output: {error}").unwrap(),
        }
        text
    }
}

/// The lines, each with its feed if it has one.
fn lines_of(bytes: &[u8]) -> impl Iterator<Item = &[u8]> {
    bytes.split_inclusive(|&byte| byte == b'\n')
}

/// Line by line, anything but plain characters escaped.
fn put_bytes(text: &mut String, bytes: &[u8], from: usize) {
    for line in lines_of(bytes).skip(from).take(SHOWN) {
        writeln!(text, "  {}", line.escape_ascii()).unwrap();
    }
    let left = lines_of(bytes).count().saturating_sub(from + SHOWN);
    if left > 0 {
        writeln!(text, "  and {left} lines more").unwrap();
    }
}

/// Runs scripts until they have that many lines.
fn scripts(
    sides: &Sides,
    tally: &mut Tally,
    amount: u64,
    mut next: impl FnMut() -> Vec<u8>,
) -> Result<String, String> {
    let (mut scripts, mut lines, mut bad) = (0, 0, 0);
    while lines < amount {
        let script = next();
        let expected = (sides.filter)(&script);
        if sides.run(&script).as_ref() != Ok(&expected) {
            return Err(sides.report(&script));
        }
        tally.count_script(&expected);
        scripts += 1;
        lines += lines_of(&script).count() as u64;
        bad += lines_of(&expected)
            .filter(|line| line.starts_with(b"bad"))
            .count();
    }
    Ok(format!(
        "{scripts} scripts, {lines} lines, {bad} of them bad"
    ))
}

/// Scripts of good lines.
pub fn good(
    sides: &Sides,
    tally: &mut Tally,
    random: &mut Random,
    amount: u64,
) -> Result<String, String> {
    scripts(sides, tally, amount, || {
        let lines = 1 + random.below(6_000);
        script(random, lines)
    })
}

/// A damaged script of about that many lines at most.
pub fn damaged_script(random: &mut Random, most: usize) -> Vec<u8> {
    let lines = random.below(most);
    let script = script(random, lines);
    damaged(random, &script)
}

/// Damaged scripts.
pub fn bad(
    sides: &Sides,
    tally: &mut Tally,
    random: &mut Random,
    amount: u64,
) -> Result<String, String> {
    scripts(sides, tally, amount, || damaged_script(random, 2_000))
}
