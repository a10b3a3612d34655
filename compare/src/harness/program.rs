//! The program under comparison, run as a child process.

use super::random::Random;
use std::io::{Read, Write};
use std::path::PathBuf;
use std::process::{Child, Command, Stdio};
use std::sync::mpsc;
use std::thread;
use std::time::Duration;

/// What a program may take for one script before it counts as hung.
const PATIENCE: Duration = Duration::from_secs(20);

pub struct Program {
    pub path: PathBuf,
}

/// The whole output, or what went wrong.
pub type Output = Result<Vec<u8>, String>;

impl Program {
    /// Runs it on a script, handed over in pieces.
    pub fn run(&self, script: &[u8], pieces: Random) -> Output {
        let mut child = Command::new(&self.path)
            .stdin(Stdio::piped())
            .stdout(Stdio::piped())
            .stderr(Stdio::null())
            .spawn()
            .map_err(|error| format!("cannot run {}: {error}", self.path.display()))?;
        let input = child.stdin.take().expect("a pipe was asked for");
        let output = child.stdout.take().expect("a pipe was asked for");
        let script = script.to_vec();
        let writer = thread::spawn(move || feed(input, &script, pieces));
        let (sender, receiver) = mpsc::channel();
        let reader = thread::spawn(move || sender.send(collect(output)));
        let collected = receiver.recv_timeout(PATIENCE);
        let ended = end(&mut child, collected.is_ok());
        // A program that is gone lets both threads come to their end.
        let _ = (writer.join(), reader.join());
        let bytes = collected.map_err(|_| "no end of output in time".to_string())?;
        ended.and(bytes)
    }
}

/// A program that ends early breaks the pipe; its output then tells.
fn feed(mut input: impl Write, script: &[u8], mut pieces: Random) {
    let whole = pieces.flag();
    let mut rest = script;
    while !rest.is_empty() {
        let length = if whole {
            rest.len()
        } else {
            1 + pieces.below(10_000)
        };
        let (piece, later) = rest.split_at(length.min(rest.len()));
        if input.write_all(piece).is_err() {
            return;
        }
        rest = later;
    }
}

fn collect(mut output: impl Read) -> Output {
    let mut bytes = Vec::new();
    match output.read_to_end(&mut bytes) {
        Ok(_) => Ok(bytes),
        Err(error) => Err(format!("reading its output: {error}")),
    }
}

/// Waits for the child, or kills it, and wants success.
fn end(child: &mut Child, wait: bool) -> Result<(), String> {
    if !wait {
        let _ = child.kill();
    }
    match child.wait() {
        Ok(status) if status.success() => Ok(()),
        Ok(status) => Err(format!("it ended with {status}")),
        Err(error) => Err(format!("waiting for it: {error}")),
    }
}
