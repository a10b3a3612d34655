//! Base regions and subregions: their stored words and what these mean.

use super::answer::Answer;
use super::bits::{bit, blend, cid_field};
use super::event::RegisterAccess;
use super::guard_register::{BasePart, SubregionPart};

const BASE_CFGR: u32 = 0x00FF_0101;
const BASE_CIDCFGR: u32 = 0x00FF_00FF;
const SUBREGION_CFGR: u32 = 0x0000_3373;
const NEST: u32 = 0x0000_0074;
const RLOCK: u32 = 1 << 1;
const SEC: u32 = 1 << 8;

#[derive(Clone, Copy, Debug, PartialEq, Eq)]
pub struct Subregion {
    pub cfgr: u32,
    pub start: u32,
    pub end: u32,
    pub nest: u32,
}

#[derive(Clone, Copy, Debug, PartialEq, Eq)]
pub struct Region {
    pub cfgr: u32,
    pub start: u32,
    pub end: u32,
    pub cidcfgr: u32,
    /// A, then B.
    pub subregions: [Subregion; 2],
}

impl Subregion {
    /// END covers one granule, whose low bits are given.
    pub fn reset(low_bits: u32) -> Subregion {
        Subregion {
            cfgr: 0,
            start: 0,
            end: low_bits,
            nest: 0,
        }
    }

    pub(crate) fn enabled(&self) -> bool {
        bit(self.cfgr, 0)
    }

    /// Enabled and covering the offset.
    pub(crate) fn holds(&self, offset: u32) -> bool {
        self.enabled() && self.start <= offset && offset <= self.end
    }

    pub(crate) fn srcid(&self) -> u32 {
        cid_field(self.cfgr, 4)
    }

    pub(crate) fn sec(&self) -> bool {
        self.cfgr & SEC != 0
    }

    pub(crate) fn private(&self) -> bool {
        bit(self.cfgr, 9)
    }

    pub(crate) fn read_enabled(&self) -> bool {
        bit(self.cfgr, 12)
    }

    pub(crate) fn write_enabled(&self) -> bool {
        bit(self.cfgr, 13)
    }

    /// Whether a write to CFGR, START or END has the rights; `port` is the CID
    /// that it speaks as.
    pub(crate) fn admits(&self, port: u32, base_sec: bool, access: &RegisterAccess) -> bool {
        let delegated = bit(self.nest, 2);
        let owner_admits = if delegated {
            cid_field(self.nest, 4) == port && (access.secure || !base_sec)
        } else {
            access.secure
        };
        access.privileged && owner_admits
    }

    pub(crate) fn read(&self, part: SubregionPart) -> u32 {
        match part {
            SubregionPart::Cfgr => self.cfgr & SUBREGION_CFGR,
            SubregionPart::Start => self.start,
            SubregionPart::End => self.end,
        }
    }

    /// An admitted write; `glock` is the guard's lock, needed to set RLOCK.
    pub(crate) fn write(
        &mut self,
        part: SubregionPart,
        access: &RegisterAccess,
        low_bits: u32,
        glock: bool,
    ) -> Answer {
        if self.cfgr & RLOCK != 0 {
            return Answer::Locked;
        }
        match part {
            SubregionPart::Cfgr => {
                let sec_kept = if access.secure { 0 } else { SEC };
                let rlock_kept = if glock { 0 } else { RLOCK };
                let taken = SUBREGION_CFGR & !sec_kept & !rlock_kept;
                self.cfgr = blend(self.cfgr, access.data, taken);
            }
            SubregionPart::Start => self.start = access.data & !low_bits,
            SubregionPart::End => self.end = access.data | low_bits,
        }
        Answer::Done(0)
    }
}

impl Region {
    /// END covers one granule, whose low bits are given.
    pub fn reset(low_bits: u32) -> Region {
        Region {
            cfgr: 0,
            start: 0,
            end: low_bits,
            cidcfgr: 0,
            subregions: [Subregion::reset(low_bits); 2],
        }
    }

    pub(crate) fn enabled(&self) -> bool {
        bit(self.cfgr, 0)
    }

    /// Enabled and covering the offset.
    pub(crate) fn holds(&self, offset: u32) -> bool {
        self.enabled() && self.start <= offset && offset <= self.end
    }

    pub(crate) fn sec(&self) -> bool {
        self.cfgr & SEC != 0
    }

    /// PRIVC0 to PRIVC7, one bit for each CID.
    pub(crate) fn privc(&self) -> u32 {
        self.cfgr >> 16 & 0xFF
    }

    /// Read enables, one bit for each CID.
    pub(crate) fn readers(&self) -> u32 {
        self.cidcfgr & 0xFF
    }

    /// Write enables, one bit for each CID.
    pub(crate) fn writers(&self) -> u32 {
        self.cidcfgr >> 16 & 0xFF
    }

    pub(crate) fn read(&self, part: BasePart) -> u32 {
        match part {
            BasePart::Cfgr => self.cfgr & BASE_CFGR,
            BasePart::Start => self.start,
            BasePart::End => self.end,
            BasePart::Cidcfgr => self.cidcfgr & BASE_CIDCFGR,
            BasePart::Nest(side) => self.subregions[side as usize].nest & NEST,
        }
    }

    /// An admitted write while the guard is not locked.
    pub(crate) fn write(&mut self, part: BasePart, data: u32, low_bits: u32) {
        match part {
            BasePart::Cfgr => self.cfgr = blend(self.cfgr, data, BASE_CFGR),
            BasePart::Start => self.start = data & !low_bits,
            BasePart::End => self.end = data | low_bits,
            BasePart::Cidcfgr => self.cidcfgr = blend(self.cidcfgr, data, BASE_CIDCFGR),
            BasePart::Nest(side) => {
                let nest = &mut self.subregions[side as usize].nest;
                *nest = blend(*nest, data, NEST);
            }
        }
    }
}
