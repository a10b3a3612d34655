//! IAC: one flag and one enable for each source of illegal accesses, and the
//! interrupt line, which is held.

use super::answer::Answer;
use super::bits::{bit, blend};
use super::event::RegisterAccess;

/// Which flags are present.
pub const IISR: [u32; 6] = [
    0xFFFF_FF7F,
    0x77FF_FFFF,
    0x77DF_F03B,
    0x0000_05FF,
    0x7BEF_FFEF,
    0x0000_0000,
];

/// Index raised by a refused RIFSC register access.
pub const RIFSC_INDEX: u32 = 158;
/// Index raised by a refused IAC register access.
pub const IAC_INDEX: u32 = 138;

const LINE: u32 = 1;
const COUNT: u32 = 0xFF;

#[derive(Clone, Debug, PartialEq, Eq)]
pub struct Iac {
    pub ier: [u32; 6],
    pub isr: [u32; 6],
    /// Bit 0 is the interrupt line.
    pub line: u32,
    /// Bits 7:0 are the number of flags that are set and enabled, as it was
    /// counted so far.
    pub count: u32,
}

#[derive(Clone, Copy)]
enum Register {
    Ier(usize),
    Isr(usize),
    Icr(usize),
    Iisr(usize),
}

impl Register {
    /// The register at a word-aligned offset.
    fn at(offset: u32) -> Option<Register> {
        let index = |first: u32| ((offset - first) / 4) as usize;
        Some(match offset {
            0x000..=0x017 => Register::Ier(index(0x000)),
            0x080..=0x097 => Register::Isr(index(0x080)),
            0x100..=0x117 => Register::Icr(index(0x100)),
            0x36C..=0x383 => Register::Iisr(index(0x36C)),
            _ => return None,
        })
    }
}

impl Iac {
    pub fn reset_state() -> Iac {
        Iac {
            ier: [0; 6],
            isr: [0; 6],
            line: 0,
            count: 0,
        }
    }

    /// Sets the flag of an index, if that flag is present.
    pub(crate) fn raise(&mut self, index: u32) {
        let (word, place) = ((index / 32) as usize, index % 32);
        if bit(IISR[word], place) {
            self.change(|iac| iac.isr[word] |= 1 << place);
        }
    }

    /// How many present flags are set and enabled.
    pub(crate) fn fresh_count(&self) -> u32 {
        let both = |x: usize| self.isr[x] & self.ier[x] & IISR[x];
        (0..IISR.len()).map(|x| both(x).count_ones()).sum()
    }

    /// Changes flags or enables. If a bit of them is another afterwards, the
    /// count moves as a fresh count does and the line goes by it.
    fn change(&mut self, change: impl FnOnce(&mut Iac)) {
        let before = self.clone();
        change(self);
        if *self == before {
            return;
        }
        let counted = self.count.wrapping_add(self.fresh_count());
        let count = counted.wrapping_sub(before.fresh_count()) & COUNT;
        self.count = blend(self.count, count, COUNT);
        self.line = blend(self.line, u32::from(count != 0), LINE);
    }

    /// Whether the line is held up, whatever the flags are.
    pub(crate) fn line_up(&self) -> bool {
        self.line & LINE != 0
    }

    /// A register access at a word-aligned offset.
    pub(crate) fn register_access(&mut self, access: &RegisterAccess) -> Answer {
        let Some(register) = Register::at(access.offset) else {
            return Answer::NoRegister;
        };
        if !matches!(register, Register::Iisr(_)) && !access.secure_privileged() {
            return Answer::Refused;
        }
        if access.writes() {
            self.write(register, access.data)
        } else {
            self.read(register)
        }
    }

    fn read(&self, register: Register) -> Answer {
        match register {
            Register::Ier(x) => Answer::Done(self.ier[x] & IISR[x]),
            Register::Isr(x) => Answer::Done(self.isr[x] & IISR[x]),
            Register::Iisr(x) => Answer::Done(IISR[x]),
            Register::Icr(_) => Answer::NoRegister,
        }
    }

    fn write(&mut self, register: Register, data: u32) -> Answer {
        match register {
            Register::Ier(x) => self.change(|iac| iac.ier[x] = blend(iac.ier[x], data, IISR[x])),
            Register::Icr(x) => self.change(|iac| iac.isr[x] &= !(data & IISR[x])),
            Register::Isr(_) | Register::Iisr(_) => return Answer::NoRegister,
        }
        Answer::Done(0)
    }
}
