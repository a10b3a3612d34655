//! RIFSC: security and privilege of peripherals, attributes of masters.

use super::answer::Answer;
use super::bits::{bit, blend, cid_field};
use super::event::{PeripheralAccess, Purpose, RegisterAccess};

/// Number of masters, so of ATTR registers.
pub const MASTERS: usize = 13;

/// The peripheral whose SEC bit guards a master's security; master 0 has none.
pub const GUARDING: [Option<u32>; MASTERS] = [
    None,
    Some(106),
    Some(53),
    Some(54),
    Some(56),
    Some(57),
    Some(60),
    Some(99),
    Some(101),
    Some(93),
    Some(103),
    Some(104),
    Some(97),
];

/// Which bits of SECCFGR, PRIVCFGR and RCFGLOCKR are present.
pub const PPSR: [u32; 6] = [
    0xFFFF_FF7F,
    0x77FF_FFFF,
    0xF7DF_F03B,
    0x0000_05FF,
    0xBBEF_FFEF,
    0x7DDE_EF7F,
];

const PERIPHERALS: u32 = 128;
const GLOCK: u32 = 1;
const DAPCID: u32 = 7 << 8;
const RIMC_ONE: u32 = 1 << 4;
const MCID: u32 = 7 << 4;
const MSEC: u32 = 1 << 8;
const MPRIV: u32 = 1 << 9;

#[derive(Clone, Debug, PartialEq, Eq)]
pub struct Rifsc {
    pub cr: u32,
    pub seccfgr: [u32; 6],
    pub privcfgr: [u32; 6],
    pub rcfglockr: [u32; 6],
    pub rimc_cr: u32,
    pub attr: [u32; MASTERS],
}

#[derive(Clone, Copy)]
enum Register {
    Cr,
    Seccfgr(usize),
    Privcfgr(usize),
    Rcfglockr(usize),
    RimcCr,
    Attr(usize),
    Ppsr(usize),
}

impl Register {
    /// The register at a word-aligned offset.
    fn at(offset: u32) -> Option<Register> {
        let index = |first: u32| ((offset - first) / 4) as usize;
        Some(match offset {
            0x000 => Register::Cr,
            0x010..=0x027 => Register::Seccfgr(index(0x010)),
            0x030..=0x047 => Register::Privcfgr(index(0x030)),
            0x050..=0x067 => Register::Rcfglockr(index(0x050)),
            0xC00 => Register::RimcCr,
            0xC10..=0xC43 => Register::Attr(index(0xC10)),
            0xFB0..=0xFC7 => Register::Ppsr(index(0xFB0)),
            _ => return None,
        })
    }
}

/// What a master's accesses carry.
pub struct MasterAttributes {
    pub cid: u32,
    pub secure: bool,
    pub privileged: bool,
}

impl Rifsc {
    pub fn reset_state() -> Rifsc {
        Rifsc {
            cr: 0,
            seccfgr: [0; 6],
            privcfgr: [0; 6],
            rcfglockr: [0; 6],
            rimc_cr: 0x0000_0710,
            attr: [0; MASTERS],
        }
    }

    /// A register access at a word-aligned offset.
    pub(crate) fn register_access(&mut self, access: &RegisterAccess) -> Answer {
        let Some(register) = Register::at(access.offset) else {
            return Answer::NoRegister;
        };
        if !access.writes() {
            return Answer::Done(self.read(register));
        }
        let admitted = match register {
            Register::Privcfgr(_) => access.privileged,
            _ => access.secure_privileged(),
        };
        if !admitted {
            return Answer::Refused;
        }
        self.write(register, access)
    }

    fn read(&self, register: Register) -> u32 {
        match register {
            Register::Cr => self.cr & GLOCK,
            Register::Seccfgr(x) => self.seccfgr[x] & PPSR[x],
            Register::Privcfgr(x) => self.privcfgr[x] & PPSR[x],
            Register::Rcfglockr(x) => self.rcfglockr[x] & PPSR[x],
            Register::RimcCr => self.rimc_cr & (DAPCID | GLOCK) | RIMC_ONE,
            Register::Attr(x) => self.attr[x] & (MPRIV | MSEC | MCID),
            Register::Ppsr(x) => PPSR[x],
        }
    }

    /// Whether a global lock holds the whole register.
    fn locked(&self, register: Register) -> bool {
        match register {
            Register::RimcCr | Register::Attr(_) => self.rimc_cr & GLOCK != 0,
            Register::Ppsr(_) => false,
            _ => self.cr & GLOCK != 0,
        }
    }

    fn write(&mut self, register: Register, access: &RegisterAccess) -> Answer {
        if self.locked(register) {
            return Answer::Locked;
        }
        let data = access.data;
        match register {
            Register::Cr => self.cr |= data & GLOCK,
            Register::Seccfgr(x) => {
                let open = PPSR[x] & !self.rcfglockr[x];
                self.seccfgr[x] = blend(self.seccfgr[x], data, open);
            }
            Register::Privcfgr(x) => {
                let kept = if access.secure { 0 } else { self.seccfgr[x] };
                let open = PPSR[x] & !self.rcfglockr[x] & !kept;
                self.privcfgr[x] = blend(self.privcfgr[x], data, open);
            }
            Register::Rcfglockr(x) => self.rcfglockr[x] |= data & PPSR[x],
            Register::RimcCr => self.rimc_cr = blend(self.rimc_cr, data, DAPCID | GLOCK),
            Register::Attr(x) => self.write_attr(x, data),
            Register::Ppsr(_) => return Answer::NoRegister,
        }
        Answer::Done(0)
    }

    /// An MCID of 7 cannot be written: the old one stays.
    fn write_attr(&mut self, master: usize, data: u32) {
        let taken = if data & MCID == MCID {
            MPRIV | MSEC
        } else {
            MPRIV | MSEC | MCID
        };
        self.attr[master] = blend(self.attr[master], data, taken);
    }

    pub(crate) fn peripheral_access(&self, access: &PeripheralAccess) -> Answer {
        let p = access.peripheral;
        let (word, place) = ((p / 32) as usize, p % 32);
        if p >= PERIPHERALS || !bit(PPSR[word], place) {
            return Answer::NoTarget;
        }
        if access.purpose == Purpose::Fetch {
            return Answer::Fetch;
        }
        let secure_met = access.secure || !self.sec(p);
        let privilege_met = access.privileged || !bit(self.privcfgr[word], place);
        if secure_met && privilege_met {
            Answer::Done(0)
        } else {
            Answer::Refused
        }
    }

    /// The stored SEC bit of a peripheral.
    fn sec(&self, peripheral: u32) -> bool {
        bit(self.seccfgr[(peripheral / 32) as usize], peripheral % 32)
    }

    /// What the accesses of a master carry, if there is one of that number.
    /// MSEC is ignored while its guarding peripheral is not secure.
    pub(crate) fn master(&self, master: u32) -> Option<MasterAttributes> {
        let attr = *self.attr.get(master as usize)?;
        let guarding = GUARDING[master as usize];
        let guarded = guarding.is_none_or(|peripheral| self.sec(peripheral));
        Some(MasterAttributes {
            cid: cid_field(attr, 4),
            secure: attr & MSEC != 0 && guarded,
            privileged: attr & MPRIV != 0,
        })
    }
}
