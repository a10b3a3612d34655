//! Random scripts for the line program.

use super::aim::memory_access;
use super::story::{Step, Story};
use crate::harness::call::Call;
use crate::harness::machine::Machine;
use crate::harness::modelled::{Modelled, MODEL};
use crate::harness::random::Random;
use crate::harness::words::reset_words;
use crate::model::{
    Block, Direction, Event, MasterAccess, MemoryAccess, PeripheralAccess, Purpose, RegisterAccess,
};
use std::io::Write;

/// A script of good lines; events are aimed at the state they meet.
pub fn script(random: &mut Random, lines: usize) -> Vec<u8> {
    let mut model = Modelled::new(MODEL);
    model.load(&reset_words());
    let mut story = Story::new(random);
    let mut text = Vec::with_capacity(32 * lines);
    for _ in 0..lines {
        let step = story.next(random, model.words());
        put_step(&mut text, &step);
        if let Step::Event(event) = step {
            model.call(&Call::Event(event));
        }
    }
    text
}

/// A script of memory accesses alone, on a state after reset.
pub fn memory_script(random: &mut Random, lines: usize) -> Vec<u8> {
    let words = reset_words();
    let mut text = Vec::with_capacity(32 * lines);
    for _ in 0..lines {
        let access = memory_access(random, &words);
        put_step(&mut text, &Step::Event(Event::Memory(access)));
    }
    text
}

fn put_step(text: &mut Vec<u8>, step: &Step) {
    let line = match step {
        Step::Event(Event::Reset) => "reset".to_string(),
        Step::Event(Event::Register(access)) => register_line(access),
        Step::Event(Event::Peripheral(access)) => peripheral_line(access),
        Step::Event(Event::Memory(access)) => memory_line(access),
        Step::Event(Event::Master(access)) => master_line(access),
        Step::Map(guard) => format!("map\t{guard}"),
    };
    writeln!(text, "{line}").unwrap();
}

fn letter(direction: Direction) -> char {
    match direction {
        Direction::Read => 'r',
        Direction::Write => 'w',
    }
}

/// The last two fields of most lines.
fn rights(secure: bool, privileged: bool) -> &'static str {
    match (secure, privileged) {
        (true, true) => "s\tp",
        (true, false) => "s\tu",
        (false, true) => "n\tp",
        (false, false) => "n\tu",
    }
}

fn register_line(access: &RegisterAccess) -> String {
    let block = match access.block {
        Block::Rifsc => "rifsc".to_string(),
        Block::Iac => "iac".to_string(),
        Block::Risaf(guard) => format!("risaf\t{guard}"),
    };
    let (offset, data) = (access.offset, access.data);
    let direction = letter(access.direction);
    let rights = rights(access.secure, access.privileged);
    format!("reg\t{block}\t{offset:08x}\t{direction}\t{data:08x}\t{rights}")
}

fn peripheral_line(access: &PeripheralAccess) -> String {
    let purpose = match access.purpose {
        Purpose::Read => 'r',
        Purpose::Write => 'w',
        Purpose::Fetch => 'x',
    };
    let rights = rights(access.secure, access.privileged);
    format!("per\t{}\t{purpose}\t{rights}", access.peripheral)
}

fn memory_line(access: &MemoryAccess) -> String {
    let (guard, offset, width) = (access.guard, access.offset, access.width);
    let (direction, cid) = (letter(access.direction), access.cid);
    let rights = rights(access.secure, access.privileged);
    format!("mem\t{guard}\t{offset:08x}\t{width}\t{direction}\t{cid}\t{rights}")
}

fn master_line(access: &MasterAccess) -> String {
    let (guard, offset, width) = (access.guard, access.offset, access.width);
    let (master, direction) = (access.master, letter(access.direction));
    format!("dma\t{master}\t{guard}\t{offset:08x}\t{width}\t{direction}")
}
