//! The comparison itself: the model against itself, and against its mutants.

use compare::generate::lines::script;
use compare::generate::states::{random_state, tiled_state};
use compare::harness::call::{Call, Outcome};
use compare::harness::case::Case;
use compare::harness::duel::Duel;
use compare::harness::machine::Machine;
use compare::harness::modelled::{Modelled, Rules, MODEL};
use compare::harness::names::word_name;
use compare::harness::program::Program;
use compare::harness::random::Random;
use compare::harness::shrink::{blank, delete, front, zero_bits};
use compare::harness::tally::Tally;
use compare::harness::words::{device_of, reset_words, store, STATE_WORDS};
use compare::model::{Block, Event, SHAPES};
use compare::mutants::{all, Change};
use compare::parts::lines::{bad, filter, good, Sides};
use compare::parts::mutants::mutants;
use compare::parts::PARTS;
use std::collections::BTreeSet;
use std::path::PathBuf;

fn program() -> Program {
    Program {
        path: PathBuf::from(env!("CARGO_BIN_EXE_filter")),
    }
}

fn rules_of(name: &str) -> Rules {
    let found = all().into_iter().find(|mutant| mutant.name == name);
    match found.map(|mutant| mutant.change) {
        Some(Change::Rules(rules)) => rules,
        _ => panic!("no such mutant of the rules: {name}"),
    }
}

#[test]
fn words_keep_every_bit() {
    let mut random = Random::new(1);
    for _ in 0..50 {
        let words = random_state(&mut random);
        let mut again = vec![0; STATE_WORDS];
        store(&device_of(&words), &mut again);
        assert_eq!(words, again);
    }
}

#[test]
fn words_lie_where_the_header_says() {
    assert_eq!(STATE_WORDS, 2359);
    let named = [
        (0, "RIFSC CR"),
        (6, "SECCFGR5"),
        (12, "PRIVCFGR5"),
        (18, "RCFGLOCKR5"),
        (19, "RIMC_CR"),
        (32, "ATTR12"),
        (38, "IER5"),
        (44, "ISR5"),
        (45, "line"),
        (46, "count"),
        (47, "RISAF1 CR"),
        (50, "RISAF1 IADDR"),
        (51, "RISAF1 region 1 CFGR"),
        (62, "RISAF1 region 1 B NEST"),
        (183, "RISAF2 CR"),
        (47 + 9 * 136, "RISAF11 CR"),
        (1814, "RISAF14 region 11 B NEST"),
        (1815, "RISAF15 CR"),
        (1815 + 136, "RISAF21 CR"),
        (2358, "RISAF23 region 11 B NEST"),
        (2359, "past the state"),
    ];
    for (place, name) in named {
        assert_eq!(word_name(place), name);
    }
    assert_eq!(reset_words()[19], 0x710);
    assert_eq!(reset_words()[33..47], [0; 14]);
    assert_eq!(reset_words()[53], 0xFFF);
    // END of region 1 of guards 14, 15, 21, and of region 11's B of 23.
    let ends = [1679, 1815, 1951].map(|guard| reset_words()[guard + 6]);
    assert_eq!((ends, reset_words()[2357]), ([0xFFF, 3, 0x1FF], 0x1FF));
}

#[test]
fn a_tiled_state_has_as_many_spans_as_there_can_be() {
    let device = device_of(&tiled_state());
    for shape in &SHAPES {
        let spans = device.map(shape.number).unwrap();
        assert_eq!(spans.len(), 1 + 6 * shape.regions);
    }
}

#[test]
fn the_model_agrees_with_itself_and_meets_every_answer() {
    let (mut expected, mut subject) = (Modelled::new(MODEL), Modelled::new(MODEL));
    let mut tally = Tally::default();
    for part in &PARTS {
        let mut duel = Duel::new(&mut expected, &mut subject, &mut tally);
        let mut random = Random::named(1, part.name);
        assert!((part.run)(&mut duel, &mut random, 60 * part.share).is_ok());
    }
    tally.count_script(&filter(&script(&mut Random::new(1), 20_000)));
    tally.verdict().unwrap();
}

/// The model, with the guards that its calls named.
struct Watched {
    model: Modelled,
    guards: BTreeSet<u32>,
}

impl Machine for Watched {
    fn load(&mut self, words: &[u32]) {
        self.model.load(words);
    }

    fn call(&mut self, call: &Call) -> Outcome {
        match call {
            Call::Event(Event::Memory(access)) => drop(self.guards.insert(access.guard)),
            Call::Event(Event::Master(access)) => drop(self.guards.insert(access.guard)),
            Call::Event(Event::Register(access)) => {
                if let Block::Risaf(guard) = access.block {
                    self.guards.insert(guard);
                }
            }
            Call::Map { guard, .. } | Call::Diff { guard, .. } => drop(self.guards.insert(*guard)),
            Call::Batch { accesses, .. } => {
                let guards = accesses.iter().map(|access| access.guard);
                self.guards.extend(guards);
            }
            _ => {}
        }
        self.model.call(call)
    }

    fn words(&self) -> &[u32] {
        self.model.words()
    }
}

#[test]
fn every_part_meets_every_guard() {
    let mut expected = Modelled::new(MODEL);
    for part in &PARTS {
        let mut subject = Watched {
            model: Modelled::new(MODEL),
            guards: BTreeSet::new(),
        };
        let mut tally = Tally::default();
        let mut duel = Duel::new(&mut expected, &mut subject, &mut tally);
        let mut random = Random::named(1, part.name);
        assert!((part.run)(&mut duel, &mut random, 20_000).is_ok());
        let numbers = SHAPES.iter().map(|shape| shape.number);
        let missed: Vec<u32> = numbers.filter(|n| !subject.guards.contains(n)).collect();
        assert!(missed.is_empty(), "{}: {missed:?}", part.name);
    }
}

#[test]
fn every_mutant_is_found() {
    let outcome = mutants(1, &mut Modelled::new(MODEL), Some(&program()));
    assert_eq!(
        outcome,
        Ok(format!("{} wrong models, each found", all().len()))
    );
}

#[test]
fn the_readme_counts_the_mutants() {
    let told = format!("| {} wrong models", all().len());
    assert!(include_str!("../README.md").contains(&told), "{told}");
}

#[test]
fn a_mutant_that_is_right_is_not_found() {
    let wrong = rules_of("iaesr-overwritten");
    let outcome = mutants(1, &mut Modelled::new(wrong), None);
    assert!(outcome.is_err_and(|missed| missed.starts_with("not found: iaesr-overwritten")));
}

/// The first case in which a mutant shows, made small.
fn smallest_case(name: &str) -> Case {
    let (mut expected, mut subject) = (Modelled::new(MODEL), Modelled::new(rules_of(name)));
    let mut tally = Tally::default();
    let mut random = Random::new(1);
    for part in PARTS.iter().cycle().take(100) {
        let mut duel = Duel::new(&mut expected, &mut subject, &mut tally);
        if let Err(case) = (part.run)(&mut duel, &mut random, 2_000) {
            let case = case.smallest(&mut expected, &mut subject);
            let report = case.report(&mut expected, &mut subject);
            assert!(report.contains("differs at call"), "{report}");
            return case;
        }
    }
    panic!("{name} was not found");
}

#[test]
fn cases_become_small() {
    let most = [
        ("end-exclusive", 1, 8),
        ("iaesr-overwritten", 2, 3),
        ("caef-forgotten", 1, 1),
        ("map-short", 1, 0),
        ("line-recounted", 1, 2),
        ("count-saturates", 2, 3),
        ("line-lazy", 1, 2),
        ("guard-unlocked", 1, 1),
        ("diff-unjoined", 1, 0),
    ];
    for (name, calls, words) in most {
        let case = smallest_case(name);
        assert!(case.calls.len() <= calls, "{name}: {:?}", case.calls);
        let left = case.state.iter().filter(|&&word| word != 0).count();
        assert!(left <= words, "{name}: {left} words");
    }
}

#[test]
fn shrinking_finds_what_matters() {
    let needed = |items: &[u32]| items.contains(&37) && items.contains(&4);
    assert_eq!(delete((0..100).collect(), needed), [4, 37]);
    assert_eq!(front((0..100).collect(), needed).len(), 38);
    let bits = |words: &[u32]| words[7] & 0x10 != 0 && words[9] & 0x8000_0000 != 0;
    let words = zero_bits(blank(vec![u32::MAX; 20], 0, bits), bits);
    assert_eq!((words[7], words[9]), (0x10, 0x8000_0000));
    assert_eq!(words.iter().filter(|&&word| word != 0).count(), 2);
    assert!(delete(Vec::<u8>::new(), |_| true).is_empty());
}

#[test]
fn scripts_agree_and_differences_become_small() {
    let (program, mut tally) = (program(), Tally::default());
    let right = Sides {
        program: &program,
        filter: &filter,
    };
    good(&right, &mut tally, &mut Random::new(1), 5_000).unwrap();
    bad(&right, &mut tally, &mut Random::new(1), 5_000).unwrap();
    let wrong = Sides {
        program: &program,
        filter: &|script: &[u8]| filter(&script.to_ascii_lowercase()),
    };
    let report = bad(&wrong, &mut tally, &mut Random::new(1), 50_000).unwrap_err();
    assert!(size_in(&report) < 60, "{report}");
}

/// The size of the script that a report shows.
fn size_in(report: &str) -> usize {
    let size = report.strip_prefix("script of ").unwrap();
    size.split(' ').next().unwrap().parse().unwrap()
}

#[test]
fn a_script_that_must_be_long_is_no_longer_than_that() {
    let (program, mut tally) = (program(), Tally::default());
    let wrong = Sides {
        program: &program,
        filter: &|script: &[u8]| match script.iter().filter(|&&byte| byte == b'\n').count() {
            0..200 => filter(script),
            _ => [&filter(script)[..], b"once more\n"].concat(),
        },
    };
    let report = good(&wrong, &mut tally, &mut Random::new(1), 50_000).unwrap_err();
    assert_eq!(size_in(&report), 200, "{report}");
}

#[test]
fn a_program_that_fails_is_a_difference() {
    let missing = Program {
        path: PathBuf::from("no-such-program"),
    };
    assert!(missing.run(b"reset\n", Random::new(1)).is_err());
}

#[test]
fn wrong_lengths_are_refused() {
    let mut model = Modelled::new(MODEL);
    model.load(&[0; STATE_WORDS - 1]);
    assert_eq!(model.call(&Call::Line).answer, 8 << 32);
}
