//! The five kinds of event. Numbers are kept as handed in.

#[derive(Clone, Copy, Debug, PartialEq, Eq)]
pub enum Event {
    Reset,
    Register(RegisterAccess),
    Peripheral(PeripheralAccess),
    Memory(MemoryAccess),
    Master(MasterAccess),
}

/// The register block asked for; a guard is named by its number.
#[derive(Clone, Copy, Debug, PartialEq, Eq)]
pub enum Block {
    Rifsc,
    Iac,
    Risaf(u32),
}

#[derive(Clone, Copy, Debug, PartialEq, Eq)]
pub enum Direction {
    Read,
    Write,
}

/// What a peripheral access is for.
#[derive(Clone, Copy, Debug, PartialEq, Eq)]
pub enum Purpose {
    Read,
    Write,
    Fetch,
}

#[derive(Clone, Copy, Debug, PartialEq, Eq)]
pub struct RegisterAccess {
    pub block: Block,
    pub offset: u32,
    pub direction: Direction,
    /// Ignored by a read.
    pub data: u32,
    pub secure: bool,
    pub privileged: bool,
}

impl RegisterAccess {
    pub(crate) fn secure_privileged(&self) -> bool {
        self.secure && self.privileged
    }

    pub(crate) fn writes(&self) -> bool {
        self.direction == Direction::Write
    }
}

#[derive(Clone, Copy, Debug, PartialEq, Eq)]
pub struct PeripheralAccess {
    pub peripheral: u32,
    pub purpose: Purpose,
    pub secure: bool,
    pub privileged: bool,
}

#[derive(Clone, Copy, Debug, PartialEq, Eq)]
pub struct MemoryAccess {
    pub guard: u32,
    pub offset: u32,
    pub width: u32,
    pub direction: Direction,
    pub cid: u32,
    pub secure: bool,
    pub privileged: bool,
}

/// A memory access whose CID, security and privilege come from RIFSC.
#[derive(Clone, Copy, Debug, PartialEq, Eq)]
pub struct MasterAccess {
    pub master: u32,
    pub guard: u32,
    pub offset: u32,
    pub width: u32,
    pub direction: Direction,
}
