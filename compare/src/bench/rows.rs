//! The rows of the tables: calls of the libraries and of the model.

use super::accesses::{asked, batch, master, memory};
use super::events::{iac, line, peripheral, register, reset, rifsc, risaf, Port};
use super::maps::{diffs, lookups, map};
use super::measure::Item;
use crate::generate::states::{crowded_state, tiled_state};
use crate::harness::words::reset_words;
use crate::model::Direction::{Read, Write};
use crate::model::Purpose;

/// All calls; so many accesses are in a batch.
pub fn items(size: usize) -> Vec<Item> {
    let (after_reset, crowded, tiled) = (reset_words(), crowded_state(), tiled_state());
    let mut items = vec![
        memory("memory access, reset, granted", &after_reset, 1),
        memory("memory access, reset, refused", &after_reset, 2),
        memory("memory access, 33 regions cover, granted", &crowded, 2),
        memory("memory access, 33 regions cover, refused", &crowded, 3),
        memory("memory access, map of 67 spans", &tiled, 2),
        master("master access, reset, refused", &after_reset),
        batch("in a batch, reset, granted", size, &after_reset, 1),
        batch("in a batch, 33 regions cover, granted", size, &crowded, 2),
        batch("in a batch, map of 67 spans", size, &tiled, 2),
        peripheral("peripheral access, granted", &after_reset, Purpose::Read),
        peripheral("fetch at a peripheral", &after_reset, Purpose::Fetch),
    ];
    items.extend(registers());
    items.extend([
        line("the interrupt line"),
        reset("reset"),
        map("map of 1 span", &after_reset),
        map("map of 67 spans", &tiled),
        asked("the same by 64 accesses a row", &tiled),
        diffs(
            "what differs between maps of 67 and 1",
            &tiled,
            &after_reset,
        ),
        lookups("lookup in 67 spans", &tiled),
    ]);
    items
}

fn registers() -> Vec<Item> {
    let refused = |port: Port| Port {
        secure: false,
        ..port
    };
    vec![
        register("read of START", risaf(0x44, Read)),
        register("write to START", risaf(0x44, Write)),
        register("the same, refused", refused(risaf(0x44, Write))),
        register("write to a subregion's CFGR", risaf(0x50, Write)),
        register("read of SECCFGR0", rifsc(0x10, Read)),
        register("write to SECCFGR0", rifsc(0x10, Write)),
        register("the same, refused", refused(rifsc(0x10, Write))),
        register("write to ATTR0", rifsc(0xC10, Write)),
        register("read of IER0", iac(0x00, Read)),
        register("write to IER0", iac(0x00, Write)),
        register("the same, refused", refused(iac(0x00, Write))),
        register("write to ICR0 that changes nothing", iac(0x100, Write)),
    ]
}
