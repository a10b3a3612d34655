//! The program's state between lines.

use super::printer::{put_answer, put_bad, put_sheet};
use super::reader::{read_line, Command};
use crate::model::Device;

pub struct Program {
    pub device: Device,
    lines: u64,
}

impl Default for Program {
    fn default() -> Program {
        Program::new()
    }
}

impl Program {
    /// Starts from reset, before line 1.
    pub fn new() -> Program {
        Program {
            device: Device::reset_state(),
            lines: 0,
        }
    }

    /// Obeys one line, given without its line feed, and prints what it gives.
    pub fn line(&mut self, line: &[u8], out: &mut Vec<u8>) {
        self.lines += 1;
        match read_line(line) {
            Some(Command::Event(event)) => put_answer(out, self.device.apply(&event)),
            Some(Command::Map(guard)) => match self.device.map(guard) {
                Ok(spans) => put_sheet(out, guard, &spans),
                Err(refusal) => put_answer(out, refusal),
            },
            None => put_bad(out, self.lines),
        }
    }

    /// A last line without a line feed is bad whatever it holds.
    pub fn unfinished_line(&mut self, out: &mut Vec<u8>) {
        self.lines += 1;
        put_bad(out, self.lines);
    }
}
