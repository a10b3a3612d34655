//! What differs between two releases, each given as a script.

use super::printer::put_diff_sheet;
use super::reader::{read_line, Command};
use crate::model::diff::diff_rows;
use crate::model::{spans, Device};

/// A bad line of the old script, 1, or of the new one, 2.
#[derive(Clone, Copy, Debug, PartialEq, Eq)]
pub struct BadLine {
    pub file: usize,
    /// From 1.
    pub line: u64,
}

/// A sheet of differences for each guard, or all bad lines in order.
pub fn releases(old: &[u8], new: &[u8]) -> Result<Vec<u8>, Vec<BadLine>> {
    let mut bad = Vec::new();
    let [before, after] = [(1, old), (2, new)].map(|(file, script)| obey(file, script, &mut bad));
    if !bad.is_empty() {
        return Err(bad);
    }
    let mut out = Vec::new();
    // Both lists of guards are in the order of their numbers.
    for (old, new) in before.guards.iter().zip(&after.guards) {
        let rows = diff_rows(&spans(old), &spans(new));
        put_diff_sheet(&mut out, old.shape().number, &rows);
    }
    Ok(out)
}

/// The device after a script from reset; what the lines would print is dropped.
fn obey(file: usize, script: &[u8], bad: &mut Vec<BadLine>) -> Device {
    let mut device = Device::reset_state();
    let lines = script.split_inclusive(|&byte| byte == b'\n');
    for (line, text) in (1..).zip(lines) {
        // A last line without a line feed is bad whatever it holds.
        match text.strip_suffix(b"\n").and_then(read_line) {
            Some(Command::Event(event)) => {
                // Refused or not.
                device.apply(&event);
            }
            // A map changes nothing.
            Some(Command::Map(_)) => {}
            None => bad.push(BadLine { file, line }),
        }
    }
    device
}
