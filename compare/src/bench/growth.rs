//! How calls grow with the regions that are enabled.

use super::accesses::{memory, GUARD};
use super::maps::map;
use super::measure::Item;
use crate::generate::states::{crowded_state, tiled_state};
use crate::harness::words::{region_at, REGION_WORDS};
use crate::model::{REGIONS_STORED, SHAPES};

/// The state with only so many regions of the benchmarks' guard enabled.
fn enabled(mut words: Vec<u32>, count: usize) -> Vec<u32> {
    let place = SHAPES.iter().position(|shape| shape.number == GUARD);
    for region in count..REGIONS_STORED {
        let at = region_at(place.expect("there is the guard"), region);
        for cfgr in (at..at + REGION_WORDS).step_by(4) {
            words[cfgr] &= !1;
        }
    }
    words
}

/// With 0 to 11 regions enabled, each with both its subregions: an access where all of them cover, one where each covers a part of
/// its own, and the map there.
pub fn items() -> Vec<Item> {
    let of = |count: usize| {
        let (crowded, tiled) = (
            enabled(crowded_state(), count),
            enabled(tiled_state(), count),
        );
        [
            memory(&format!("{count}, access where all cover"), &crowded, 2),
            memory(&format!("{count}, access where one covers"), &tiled, 2),
            map(&format!("{count}, map"), &tiled),
        ]
    };
    (0..=REGIONS_STORED).flat_map(of).collect()
}
