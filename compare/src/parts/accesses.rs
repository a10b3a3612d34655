//! Events one by one, on states of all kinds.

use super::Verdict;
use crate::generate::aim::{event, sweep};
use crate::generate::flags::{few_flags, flag_event, hold};
use crate::generate::lent::{map_of, no_such};
use crate::generate::states::{dense_state, random_state};
use crate::generate::story::{Step, Story};
use crate::harness::call::Call;
use crate::harness::case::Case;
use crate::harness::duel::Duel;
use crate::harness::random::Random;
use crate::harness::words::reset_words;
use crate::model::{Event, GUARDS};

/// Any call that has a state and no lent memory; mostly an event.
pub fn any_call(random: &mut Random, words: &[u32]) -> Call {
    match random.below(1_000) {
        0 => Call::Event(Event::Reset),
        1..=9 => no_such(random),
        10..=29 => Call::Line,
        _ => Call::Event(event(random, words)),
    }
}

fn any_calls(duel: &mut Duel, random: &mut Random, count: u64) -> Result<(), Case> {
    for _ in 0..count {
        let call = any_call(random, duel.words());
        duel.step(call)?;
    }
    Ok(())
}

/// States with every bit random.
pub fn random(duel: &mut Duel, random: &mut Random, amount: u64) -> Verdict {
    const EACH: u64 = 64;
    let states = amount.div_ceil(EACH);
    for _ in 0..states {
        duel.load(random_state(random));
        any_calls(duel, random, EACH)?;
    }
    Ok(format!("{states} states, {} events", states * EACH))
}

/// States with all regions in use, each with a sweep over a guard's boundaries.
pub fn dense(duel: &mut Duel, random: &mut Random, amount: u64) -> Verdict {
    const EACH: u64 = 200;
    let (mut states, mut events) = (0, 0);
    while events < amount {
        duel.load(dense_state(random));
        any_calls(duel, random, EACH)?;
        let place = random.below(GUARDS);
        let sweep = sweep(random, duel.words(), place);
        events += EACH + sweep.len() as u64;
        for event in sweep {
            duel.step(Call::Event(event))?;
        }
        states += 1;
    }
    Ok(format!("{states} states, {events} events"))
}

/// States reached from reset by events alone.
pub fn reached(duel: &mut Duel, random: &mut Random, amount: u64) -> Verdict {
    const EACH: u64 = 3_000;
    let stories = amount.div_ceil(EACH);
    for _ in 0..stories {
        duel.load(reset_words());
        let mut story = Story::new(random);
        for _ in 0..EACH {
            let call = match story.next(random, duel.words()) {
                Step::Event(event) => Call::Event(event),
                Step::Map(guard) => map_of(random, guard),
            };
            duel.step(call)?;
            if random.one_in(50) {
                duel.step(Call::Line)?;
            }
        }
    }
    Ok(format!(
        "{stories} stories from reset, {} events",
        stories * EACH
    ))
}

/// The interrupt line, on few flags and few enables, as it is held and as it
/// is after raises and writes to IER and ICR.
pub fn line(duel: &mut Duel, random: &mut Random, amount: u64) -> Verdict {
    const EACH: u64 = 10;
    let states = amount.div_ceil(EACH);
    let mut state = random_state(random);
    for _ in 0..states {
        few_flags(random, &mut state);
        hold(random, &mut state);
        duel.load(state.clone());
        duel.step(Call::Line)?;
        for _ in 0..EACH {
            let event = flag_event(random, duel.words());
            duel.step(Call::Event(event))?;
            duel.step(Call::Line)?;
        }
    }
    Ok(format!("{states} states, {} events", states * EACH))
}
