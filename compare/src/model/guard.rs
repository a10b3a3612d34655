//! RISAF: one memory guard, its registers and its fault record.

use super::answer::Answer;
use super::bits::blend;
use super::event::RegisterAccess;
use super::guard_register::GuardRegister;
use super::region::Region;
use super::rule::{Asking, Governing};
use super::shape::{Shape, REGIONS_STORED};

const GLOCK: u32 = 1;
const CAEF: u32 = 1 << 0;
const IAEF: u32 = 1 << 1;
const IAESR: u32 = 0x0000_00B7;

#[derive(Clone, Debug, PartialEq, Eq)]
pub struct Guard {
    shape: &'static Shape,
    pub cr: u32,
    pub iasr: u32,
    pub iaesr: u32,
    pub iaddr: u32,
    /// Those past the shape's count are stored only.
    pub regions: [Region; REGIONS_STORED],
}

impl Guard {
    pub fn reset_state(shape: &'static Shape) -> Guard {
        Guard {
            shape,
            cr: 0,
            iasr: 0,
            iaesr: 0,
            iaddr: 0,
            regions: [Region::reset(shape.low_bits()); REGIONS_STORED],
        }
    }

    pub fn shape(&self) -> &'static Shape {
        self.shape
    }

    /// The base regions this guard really has.
    pub fn own_regions(&self) -> &[Region] {
        &self.regions[..self.shape.regions]
    }

    /// What governs an offset of the window.
    pub(crate) fn governing(&self, offset: u32) -> Governing {
        Governing::at(self.shape.bus, self.own_regions(), offset)
    }

    /// A memory access inside or outside the window, with its fault record.
    pub(crate) fn memory_access(&mut self, offset: u32, asking: Asking) -> Answer {
        if u64::from(offset) >= self.shape.window {
            return Answer::PastWindow;
        }
        match self.governing(offset).judge(asking) {
            Ok(rule) => Answer::Granted(rule),
            Err(reason) => {
                self.record_fault(offset, asking);
                Answer::Denied(reason)
            }
        }
    }

    /// The first fault is kept until IAEF is cleared.
    fn record_fault(&mut self, offset: u32, asking: Asking) {
        if self.iasr & IAEF == 0 {
            let fault = self.shape.bus.cid(asking.cid)
                | u32::from(asking.privileged) << 4
                | u32::from(asking.secure) << 5
                | u32::from(asking.write) << 7;
            self.iaesr = blend(self.iaesr, fault, IAESR);
            self.iaddr = offset;
        }
        self.iasr |= IAEF;
    }

    /// A register access at a word-aligned offset.
    pub(crate) fn register_access(&mut self, access: &RegisterAccess) -> Answer {
        let Some(register) = GuardRegister::at(access.offset, self.shape.regions) else {
            return Answer::NoRegister;
        };
        if !self.admits(register, access) {
            self.iasr |= CAEF;
            return Answer::Refused;
        }
        if access.writes() {
            self.write(register, access)
        } else {
            self.read(register)
        }
    }

    fn admits(&self, register: GuardRegister, access: &RegisterAccess) -> bool {
        match register {
            GuardRegister::Iasr
            | GuardRegister::Iacr
            | GuardRegister::Iaesr
            | GuardRegister::Iaddr => access.secure_privileged(),
            _ if !access.writes() => true,
            GuardRegister::Cr | GuardRegister::Base(..) => access.secure_privileged(),
            GuardRegister::Subregion(index, side, _) => {
                let region = &self.regions[index];
                let subregion = &region.subregions[side as usize];
                subregion.admits(self.shape.bus.port(), region.sec(), access)
            }
        }
    }

    fn read(&self, register: GuardRegister) -> Answer {
        Answer::Done(match register {
            GuardRegister::Cr => self.cr & GLOCK,
            GuardRegister::Iasr => self.iasr & (IAEF | CAEF),
            GuardRegister::Iacr => return Answer::NoRegister,
            GuardRegister::Iaesr => self.iaesr & IAESR,
            GuardRegister::Iaddr => self.iaddr,
            GuardRegister::Base(index, part) => self.regions[index].read(part),
            GuardRegister::Subregion(index, side, part) => {
                self.regions[index].subregions[side as usize].read(part)
            }
        })
    }

    fn write(&mut self, register: GuardRegister, access: &RegisterAccess) -> Answer {
        let (glock, low_bits) = (self.cr & GLOCK != 0, self.shape.low_bits());
        match register {
            GuardRegister::Iasr | GuardRegister::Iaesr | GuardRegister::Iaddr => {
                return Answer::NoRegister;
            }
            GuardRegister::Iacr => self.iasr &= !(access.data & (IAEF | CAEF)),
            GuardRegister::Subregion(index, side, part) => {
                let subregion = &mut self.regions[index].subregions[side as usize];
                return subregion.write(part, access, low_bits, glock);
            }
            _ if glock => return Answer::Locked,
            GuardRegister::Cr => self.cr |= access.data & GLOCK,
            GuardRegister::Base(index, part) => {
                self.regions[index].write(part, access.data, low_bits);
            }
        }
        Answer::Done(0)
    }
}
