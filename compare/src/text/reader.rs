//! Reads one line into the command it gives.

use super::fields::Fields;
use crate::model::{
    Block, Direction, Event, MasterAccess, MemoryAccess, PeripheralAccess, Purpose, RegisterAccess,
};

/// The most bytes a line may have before its line feed.
pub const LINE_LIMIT: usize = 64;

#[derive(Clone, Copy, Debug, PartialEq, Eq)]
pub enum Command {
    Event(Event),
    /// Print the map of this guard.
    Map(u32),
}

/// The command on a line without its line feed; none on a bad line.
pub fn read_line(line: &[u8]) -> Option<Command> {
    if line.len() > LINE_LIMIT {
        return None;
    }
    if line == b"reset" {
        return Some(Command::Event(Event::Reset));
    }
    let (keyword, rest) = line.split_first_chunk::<3>()?;
    let mut fields = Fields::new(rest);
    let command = match keyword {
        b"mem" => Command::Event(Event::Memory(memory(&mut fields)?)),
        b"reg" => Command::Event(Event::Register(register(&mut fields)?)),
        b"per" => Command::Event(Event::Peripheral(peripheral(&mut fields)?)),
        b"dma" => Command::Event(Event::Master(master(&mut fields)?)),
        b"map" => Command::Map(fields.decimal()?),
        _ => return None,
    };
    fields.end()?;
    Some(command)
}

fn register(fields: &mut Fields) -> Option<RegisterAccess> {
    Some(RegisterAccess {
        block: block(fields)?,
        offset: fields.hex()?,
        direction: direction(fields)?,
        data: fields.hex()?,
        secure: choice(fields, b's', b'n')?,
        privileged: choice(fields, b'p', b'u')?,
    })
}

fn block(fields: &mut Fields) -> Option<Block> {
    if fields.word(b"risaf").is_some() {
        return fields.decimal().map(Block::Risaf);
    }
    if fields.word(b"rifsc").is_some() {
        return Some(Block::Rifsc);
    }
    fields.word(b"iac").map(|()| Block::Iac)
}

fn peripheral(fields: &mut Fields) -> Option<PeripheralAccess> {
    Some(PeripheralAccess {
        peripheral: fields.decimal()?,
        purpose: match fields.letter()? {
            b'r' => Purpose::Read,
            b'w' => Purpose::Write,
            b'x' => Purpose::Fetch,
            _ => return None,
        },
        secure: choice(fields, b's', b'n')?,
        privileged: choice(fields, b'p', b'u')?,
    })
}

fn memory(fields: &mut Fields) -> Option<MemoryAccess> {
    Some(MemoryAccess {
        guard: fields.decimal()?,
        offset: fields.hex()?,
        width: fields.decimal()?,
        direction: direction(fields)?,
        cid: fields.decimal()?,
        secure: choice(fields, b's', b'n')?,
        privileged: choice(fields, b'p', b'u')?,
    })
}

fn master(fields: &mut Fields) -> Option<MasterAccess> {
    Some(MasterAccess {
        master: fields.decimal()?,
        guard: fields.decimal()?,
        offset: fields.hex()?,
        width: fields.decimal()?,
        direction: direction(fields)?,
    })
}

fn direction(fields: &mut Fields) -> Option<Direction> {
    choice(fields, b'w', b'r').map(|write| {
        if write {
            Direction::Write
        } else {
            Direction::Read
        }
    })
}

/// A letter field: true for `yes`, false for `no`, else a bad line.
fn choice(fields: &mut Fields, yes: u8, no: u8) -> Option<bool> {
    let letter = fields.letter()?;
    (letter == yes || letter == no).then_some(letter == yes)
}
