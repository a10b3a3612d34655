//! Splits the input into lines, block by block.

use super::program::Program;
use super::reader::LINE_LIMIT;
use std::io::{self, ErrorKind, Read, Write};

const BLOCK: usize = 1 << 16;

/// Obeys every line of the input and prints to the output.
pub fn run(mut input: impl Read, mut output: impl Write) -> io::Result<()> {
    let mut program = Program::new();
    let mut buffer = vec![0; BLOCK];
    let mut printed = Vec::with_capacity(2 * BLOCK);
    // Bytes of an unfinished line, at the front of the buffer.
    let mut held = 0;
    loop {
        let got = match input.read(&mut buffer[held..]) {
            Ok(0) => break,
            Ok(got) => got,
            Err(error) if error.kind() == ErrorKind::Interrupted => continue,
            Err(error) => return Err(error),
        };
        let mut rest = &buffer[..held + got];
        while let Some(length) = rest.iter().position(|&byte| byte == b'\n') {
            program.line(&rest[..length], &mut printed);
            rest = &rest[length + 1..];
            if printed.len() >= BLOCK {
                output.write_all(&printed)?;
                printed.clear();
            }
        }
        let unread = held + got - rest.len();
        // A line too long stays too long when cut just past the limit.
        held = rest.len().min(LINE_LIMIT + 1);
        buffer.copy_within(unread..unread + held, 0);
        output.write_all(&printed)?;
        printed.clear();
    }
    if held > 0 {
        program.unfinished_line(&mut printed);
    }
    output.write_all(&printed)?;
    output.flush()
}
