//! What tells one guard from another: its bus, regions, granule, window and
//! flag.

use super::iac::IAC_INDEX;

/// Base regions stored in every guard, also past its own count.
pub const REGIONS_STORED: usize = 11;

/// Number of guards.
pub const GUARDS: usize = 17;

/// The bus that a guard filters.
#[derive(Clone, Copy, Debug, PartialEq, Eq)]
pub enum Bus {
    /// It carries the CID of who asks.
    Axi,
    /// It carries none: every access counts as CID 0.
    Ahb,
}

impl Bus {
    /// What an access of that CID counts as.
    pub fn cid(self, given: u32) -> u32 {
        match self {
            Bus::Axi => given,
            Bus::Ahb => 0,
        }
    }

    /// The compartment that the guard's register port speaks as.
    pub fn port(self) -> u32 {
        match self {
            Bus::Axi => 1,
            Bus::Ahb => 0,
        }
    }
}

#[derive(Debug, PartialEq, Eq)]
pub struct Shape {
    /// The guard's number in its name RISAFn.
    pub number: u32,
    pub bus: Bus,
    /// Its own count of base regions.
    pub regions: usize,
    /// In bytes, a power of two; START and END follow it.
    pub granule: u32,
    /// The window's size in bytes.
    pub window: u64,
    /// The index that its refusals raise.
    pub flag: u32,
}

impl Shape {
    /// The bits that are 0 in a START written and 1 in an END.
    pub fn low_bits(&self) -> u32 {
        self.granule - 1
    }
}

const fn axi(number: u32, regions: usize, window: u64) -> Shape {
    Shape {
        number,
        bus: Bus::Axi,
        regions,
        granule: 4_096,
        window,
        flag: IAC_INDEX + number,
    }
}

const fn ahb(number: u32, regions: usize, granule: u32, window: u64, flag: u32) -> Shape {
    Shape {
        number,
        bus: Bus::Ahb,
        regions,
        granule,
        window,
        flag,
    }
}

/// All guards in the order of their numbers; 10 and 16 to 20 are none.
pub static SHAPES: [Shape; GUARDS] = [
    axi(1, 7, 1 << 30),
    axi(2, 7, 1 << 20),
    axi(3, 7, 1 << 20),
    axi(4, 11, 1 << 32),
    axi(5, 11, 1 << 32),
    axi(6, 11, 1 << 32),
    axi(7, 7, 409_600),
    axi(8, 7, 262_144),
    axi(9, 7, 131_072),
    axi(11, 7, 1 << 28),
    axi(12, 7, 1 << 28),
    axi(13, 7, 1 << 28),
    axi(14, 7, 1 << 28),
    ahb(15, 2, 4, 4_096, 153),
    ahb(21, 7, 512, 16_384, 155),
    ahb(22, 7, 512, 16_384, 156),
    ahb(23, 3, 512, 4_096, 157),
];

/// Where in the list the guard of that number stands.
pub fn place_of(number: u32) -> Option<usize> {
    match number {
        1..=9 => Some(number as usize - 1),
        11..=15 => Some(number as usize - 2),
        21..=23 => Some(number as usize - 7),
        _ => None,
    }
}

/// What the guard of that number is like, if there is one.
pub fn shape_of(number: u32) -> Option<&'static Shape> {
    place_of(number).map(|place| &SHAPES[place])
}
