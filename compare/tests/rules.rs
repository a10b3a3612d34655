//! The rules against a word-for-word reading, and the map against the rules.

mod common;

use common::random::Random;
use common::{on_ahb, GUARD_NUMBERS};
use compare::model::{
    lookup, Device, Direction, Event, Guard, MemoryAccess, Region, Span, Subregion,
};

fn bit(word: u32, place: u32) -> bool {
    word & (1 << place) != 0
}

fn covers(start: u32, end: u32, offset: u32) -> bool {
    start <= end && (start..=end).contains(&offset)
}

/// The tests for security, for privilege, for compartment and direction.
type Tests = [bool; 3];

/// On the AHB bus there is no compartment to test.
fn default_tests(ask: &MemoryAccess) -> Tests {
    let compartment = on_ahb(ask.guard) || ask.cid == 1 || ask.cid == 7;
    [ask.secure, ask.privileged, compartment]
}

/// Each test over all regions.
fn base_tests(bases: &[&Region], ask: &MemoryAccess) -> Tests {
    let first_enable = if ask.direction == Direction::Write {
        16
    } else {
        0
    };
    let enable = first_enable + ask.cid;
    let all = |test: &dyn Fn(&Region) -> bool| bases.iter().all(|base| test(base));
    [
        all(&|base| ask.secure == bit(base.cfgr, 8)),
        all(&|base| ask.privileged || !bit(base.cfgr, 16 + ask.cid)),
        all(&|base| bit(base.cidcfgr, enable) || ask.cid == 7),
    ]
}

fn subregion_tests(counting: &[(&Region, &Subregion)], ask: &MemoryAccess) -> Tests {
    let srcid = |sub: &Subregion| sub.cfgr / 16 % 8;
    let all_sec = counting
        .iter()
        .all(|(base, sub)| bit(sub.cfgr, 8) && bit(base.cfgr, 8));
    let all_priv = counting
        .iter()
        .all(|(base, sub)| bit(sub.cfgr, 9) && bit(base.cfgr, 16 + srcid(sub)));
    let enable = if ask.direction == Direction::Write {
        13
    } else {
        12
    };
    let one_opens = counting
        .iter()
        .any(|(_, sub)| (srcid(sub) == ask.cid || ask.cid == 7) && bit(sub.cfgr, enable));
    [
        ask.secure == all_sec,
        ask.privileged || !all_priv,
        one_opens,
    ]
}

/// The rule's number, and that of the first test that fails, from 1.
fn judged(guard: &Guard, ask: &MemoryAccess) -> (u32, Option<u32>) {
    let mut ask = *ask;
    if on_ahb(ask.guard) {
        ask.cid = 0;
    }
    let ask = &ask;
    let bases: Vec<&Region> = guard
        .own_regions()
        .iter()
        .filter(|r| bit(r.cfgr, 0) && covers(r.start, r.end, ask.offset))
        .collect();
    let counting: Vec<(&Region, &Subregion)> = bases
        .iter()
        .flat_map(|&base| base.subregions.iter().map(move |sub| (base, sub)))
        .filter(|(_, s)| bit(s.cfgr, 0) && covers(s.start, s.end, ask.offset))
        .collect();
    let (rule, tests) = if !counting.is_empty() {
        (2, subregion_tests(&counting, ask))
    } else if !bases.is_empty() {
        (1, base_tests(&bases, ask))
    } else {
        (0, default_tests(ask))
    };
    let failing = (1..).zip(tests).find(|(_, passed)| !passed);
    (rule, failing.map(|(reason, _)| reason))
}

#[test]
fn memory_accesses_follow_the_rules() {
    let mut random = Random::new(4);
    // For each bus and rule how often it granted, and how often it refused for which reason.
    let mut counts = [[[0; 4]; 3]; 2];
    for _ in 0..2_000 {
        let mut device = random.device();
        for _ in 0..300 {
            let ask = random.memory_access();
            let Some(guard) = device.guard(ask.guard) else {
                continue;
            };
            let fits = u64::from(ask.offset) < guard.shape().window;
            if !fits || ask.cid > 7 || !ask.offset.is_multiple_of(ask.width) {
                continue;
            }
            let (rule, reason) = judged(guard, &ask);
            let answer = device.apply(&Event::Memory(ask));
            let expected = reason.map_or((0, rule), |reason| (1, reason));
            assert_eq!((answer.number(), answer.value()), expected);
            let rules = &mut counts[usize::from(on_ahb(ask.guard))];
            rules[rule as usize][reason.unwrap_or(0) as usize] += 1;
        }
    }
    // There rule 0 has no third reason.
    assert_eq!(counts[1][0][3], 0);
    counts[1][0][3] = 1_000;
    let mut all = counts.iter().flatten().flatten();
    assert!(all.all(|&count| count > 100), "{counts:?}");
}

fn ask_of_kind(guard: u32, offset: u32, kind: u32) -> MemoryAccess {
    MemoryAccess {
        guard,
        offset,
        width: 1,
        direction: if bit(kind, 3) {
            Direction::Write
        } else {
            Direction::Read
        },
        cid: kind % 8,
        privileged: bit(kind, 4),
        secure: bit(kind, 5),
    }
}

fn rights_at(device: &Device, number: u32, offset: u32) -> u64 {
    let guard = device.guard(number).unwrap();
    (0..64)
        .filter(|&kind| {
            judged(guard, &ask_of_kind(number, offset, kind))
                .1
                .is_none()
        })
        .fold(0, |rights, kind| rights | 1 << kind)
}

/// The form every map has, whatever the rights are.
fn check_form(spans: &[Span], window: u64) {
    assert!(spans.len() <= 67);
    assert_eq!(spans[0].start, 0);
    assert_eq!(spans.last().unwrap().end, window - 1);
    assert!(spans.iter().all(|span| span.start <= span.end));
    for pair in spans.windows(2) {
        assert_eq!(pair[1].start, pair[0].end + 1);
        assert_ne!(pair[0].rights, pair[1].rights);
    }
}

#[test]
fn maps_follow_the_rules() {
    let mut random = Random::new(5);
    let mut longest = 0;
    for _ in 0..100 {
        let device = random.device();
        for number in GUARD_NUMBERS {
            let spans = device.map(number).unwrap();
            let window = device.guard(number).unwrap().shape().window;
            check_form(&spans, window);
            longest = longest.max(spans.len());
            let numbers: Vec<u64> = spans
                .iter()
                .flat_map(|s| [s.start, s.end, s.rights])
                .collect();
            let ends = spans.iter().flat_map(|span| [span.start, span.end]);
            let others: Vec<u64> = (0..20).map(|_| u64::from(random.offset())).collect();
            for offset in ends.chain(others).filter(|&offset| offset < window) {
                let rights = rights_at(&device, number, offset as u32);
                assert_eq!(lookup(&numbers, offset)[2], rights);
            }
        }
    }
    assert!(longest > 10, "{longest}");
}

#[test]
fn lookup_takes_the_first_enclosing_row() {
    let numbers = [5, 9, 1, 0, 3, 2, 7, 20, 3, 30, 40];
    assert_eq!(lookup(&numbers, 7), [5, 9, 1]);
    assert_eq!(lookup(&numbers, 3), [0, 3, 2]);
    assert_eq!(lookup(&numbers, 20), [7, 20, 3]);
    assert!(lookup(&numbers, 4).is_empty());
    assert!(lookup(&numbers, 35).is_empty());
    assert!(lookup(&numbers[..2], 7).is_empty());
    assert!(lookup(&[9, 5, 1], 7).is_empty());
    assert!(lookup(&[], 0).is_empty());
}
