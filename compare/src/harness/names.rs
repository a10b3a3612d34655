//! Names for the words of a state, for reports.

use super::words::{
    COUNT_AT, FIRST_GUARD, GUARD_HEAD, GUARD_WORDS, LINE_AT, REGION_WORDS, STATE_WORDS,
};
use crate::model::SHAPES;

const REGION_NAMES: [&str; REGION_WORDS] = [
    "CFGR", "START", "END", "CIDCFGR", "A CFGR", "A START", "A END", "A NEST", "B CFGR", "B START",
    "B END", "B NEST",
];

/// The register that a word of a state holds.
pub fn word_name(place: usize) -> String {
    match place {
        0 => "RIFSC CR".to_string(),
        1..=6 => format!("SECCFGR{}", place - 1),
        7..=12 => format!("PRIVCFGR{}", place - 7),
        13..=18 => format!("RCFGLOCKR{}", place - 13),
        19 => "RIMC_CR".to_string(),
        20..=32 => format!("ATTR{}", place - 20),
        33..=38 => format!("IER{}", place - 33),
        39..LINE_AT => format!("ISR{}", place - 39),
        LINE_AT => "line".to_string(),
        COUNT_AT => "count".to_string(),
        FIRST_GUARD..STATE_WORDS => guard_word_name(place - FIRST_GUARD),
        _ => "past the state".to_string(),
    }
}

fn guard_word_name(place: usize) -> String {
    let number = SHAPES[place / GUARD_WORDS].number;
    let inside = place % GUARD_WORDS;
    if inside < GUARD_HEAD {
        return format!("RISAF{number} {}", ["CR", "IASR", "IAESR", "IADDR"][inside]);
    }
    let (region, word) = (
        (inside - GUARD_HEAD) / REGION_WORDS,
        (inside - GUARD_HEAD) % REGION_WORDS,
    );
    format!("RISAF{number} region {} {}", region + 1, REGION_NAMES[word])
}
