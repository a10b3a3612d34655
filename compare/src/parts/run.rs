//! A whole comparison, part by part.

use super::example::example;
use super::lines::{bad, filter, good, Sides};
use super::mutants::mutants;
use super::options::Options;
use super::releases::releases;
use super::{Part, PARTS};
use crate::harness::duel::Duel;
use crate::harness::machine::Machine;
use crate::harness::modelled::{Modelled, MODEL};
use crate::harness::program::Program;
use crate::harness::random::Random;
use crate::harness::tally::Tally;
use crate::mutants::Change;
use std::fmt::Write;
use std::path::Path;
use std::time::Instant;

/// Counts parts as they pass or fail, and prints how.
#[derive(Default)]
pub struct Report {
    passed: usize,
    failed: usize,
    times: String,
}

impl Report {
    pub fn part(&mut self, name: &str, run: impl FnOnce() -> Result<String, String>) {
        let started = Instant::now();
        match run() {
            Ok(told) => {
                let gap = if told.is_empty() { "" } else { " " };
                println!("{name}: {told}{gap}ok");
                self.passed += 1;
            }
            Err(trouble) => {
                println!("{trouble}{name}: FAILED");
                self.failed += 1;
            }
        }
        let seconds = started.elapsed().as_secs_f64();
        write!(self.times, " {name} {seconds:.1}").unwrap();
    }

    pub fn end(self) -> bool {
        println!("seconds:{}", self.times);
        println!("{} passed, {} failed", self.passed, self.failed);
        self.failed == 0
    }
}

/// Compares the subject, linked from that directory; whether all is well.
pub fn run(options: &Options, subject: &mut dyn Machine, library: &Path) -> bool {
    let Options {
        seed,
        events,
        lines,
        ..
    } = *options;
    println!("seed {seed}, {events} events, {lines} lines");
    let program = Program {
        path: options.program.clone(),
    };
    let (mut report, mut tally) = (Report::default(), Tally::default());
    let change = options.mutant.map(|mutant| mutant.change);
    if !matches!(change, Some(Change::Rules(_))) {
        scripts(&mut report, &mut tally, options, &program);
    }
    if !matches!(change, Some(Change::Lines(_))) {
        for part in &PARTS {
            report.part(part.name, || interface(part, options, subject, &mut tally));
        }
    }
    if options.mutant.is_none() {
        report.part("mutants", || mutants(seed, subject, Some(&program)));
        let mut random = Random::named(seed, "releases");
        let pairs = lines.div_ceil(10_000);
        report.part("releases", || {
            releases(&options.releases, &mut random, pairs)
        });
        report.part("example", || example(&options.root, library));
        print!("{}", tally.table());
        report.part("answers", || {
            let pairs = tally.verdict()?;
            Ok(format!("{pairs} pairs of a call and its answer, each met"))
        });
    }
    report.end()
}

/// The program against the filter, on good and on damaged scripts.
fn scripts(report: &mut Report, tally: &mut Tally, options: &Options, program: &Program) {
    let filter = match options.mutant.map(|mutant| mutant.change) {
        Some(Change::Lines(wrong)) => wrong,
        _ => filter,
    };
    let sides = Sides {
        program,
        filter: &filter,
    };
    let half = options.lines.div_ceil(2);
    let mut random = Random::named(options.seed, "scripts");
    report.part("scripts", || good(&sides, tally, &mut random, half));
    let mut random = Random::named(options.seed, "damage");
    report.part("damage", || bad(&sides, tally, &mut random, half));
}

/// One part of the C interface against the model.
fn interface(
    part: &Part,
    options: &Options,
    subject: &mut dyn Machine,
    tally: &mut Tally,
) -> Result<String, String> {
    let rules = match options.mutant.map(|mutant| mutant.change) {
        Some(Change::Rules(wrong)) => wrong,
        _ => MODEL,
    };
    let mut expected = Modelled::new(rules);
    let mut duel = Duel::new(&mut expected, subject, tally);
    let mut random = Random::named(options.seed, part.name);
    let amount = (options.events * part.share).div_ceil(1_000);
    (part.run)(&mut duel, &mut random, amount).map_err(|case| {
        let case = case.smallest(&mut expected, subject);
        case.report(&mut expected, subject)
    })
}
