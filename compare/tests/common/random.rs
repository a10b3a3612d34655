//! Arbitrary states and events from a small generator.

use super::{on_ahb, GUARD_NUMBERS};
use compare::model::{
    Block, Device, Direction, Event, MasterAccess, MemoryAccess, PeripheralAccess, Purpose, Region,
    RegisterAccess, Subregion,
};

/// A 64-bit xorshift generator.
pub struct Random(u64);

impl Random {
    pub fn new(seed: u64) -> Random {
        Random(seed * 2 + 1)
    }

    pub fn word(&mut self) -> u32 {
        self.0 ^= self.0 << 13;
        self.0 ^= self.0 >> 7;
        self.0 ^= self.0 << 17;
        (self.0.wrapping_mul(0x2545_F491_4F6C_DD1D) >> 32) as u32
    }

    pub fn below(&mut self, limit: u32) -> u32 {
        self.word() % limit
    }

    pub fn flag(&mut self) -> bool {
        self.below(2) == 1
    }

    fn direction(&mut self) -> Direction {
        if self.flag() {
            Direction::Write
        } else {
            Direction::Read
        }
    }

    /// Mostly low, so that regions overlap; sometimes anything.
    pub fn offset(&mut self) -> u32 {
        match self.below(7) {
            0 => self.word(),
            1 => self.below(0x20) * 0x1000,
            2 => (self.below(0x20) * 0x1000).wrapping_sub(1),
            3 => self.below(0x20000),
            // In the smallest windows.
            4 => self.below(0x20) * 0x200,
            5 => (self.below(0x20) * 0x200).wrapping_sub(1),
            _ => self.below(0x1000),
        }
    }

    fn subregion(&mut self) -> Subregion {
        Subregion {
            cfgr: self.word(),
            start: self.offset(),
            end: self.offset(),
            nest: self.word(),
        }
    }

    fn region(&mut self) -> Region {
        Region {
            cfgr: self.word(),
            start: self.offset(),
            end: self.offset(),
            cidcfgr: self.word(),
            subregions: [self.subregion(), self.subregion()],
        }
    }

    /// Arbitrary contents in every stored word.
    pub fn device(&mut self) -> Device {
        let mut device = Device::reset_state();
        let rifsc = &mut device.rifsc;
        rifsc.cr = self.word();
        rifsc.rimc_cr = self.word();
        rifsc.attr.fill_with(|| self.word());
        let iac = &mut device.iac;
        for words in [
            &mut rifsc.seccfgr,
            &mut rifsc.privcfgr,
            &mut rifsc.rcfglockr,
            &mut iac.ier,
            &mut iac.isr,
        ] {
            words.fill_with(|| self.word());
        }
        (iac.line, iac.count) = (self.word(), self.word());
        for guard in &mut device.guards {
            guard.cr = self.word();
            guard.iasr = self.word();
            guard.iaesr = self.word();
            guard.iaddr = self.word();
            guard.regions.fill_with(|| self.region());
        }
        device
    }

    fn guard_number(&mut self) -> u32 {
        if self.below(20) == 0 {
            self.below(26)
        } else {
            GUARD_NUMBERS[self.below(17) as usize]
        }
    }

    pub fn memory_access(&mut self) -> MemoryAccess {
        let guard = self.guard_number();
        let size = if on_ahb(guard) { 0x2000 } else { u32::MAX };
        MemoryAccess {
            guard,
            offset: self.offset() % size,
            width: [1, 1, 1, 2, 4][self.below(5) as usize],
            direction: self.direction(),
            cid: self.below(8) + self.below(20) / 19,
            secure: self.flag(),
            privileged: self.flag(),
        }
    }

    pub fn register_access(&mut self) -> RegisterAccess {
        let (block, size) = match self.below(4) {
            0 => (Block::Rifsc, 0xFD0),
            1 => (Block::Iac, 0x390),
            _ => (Block::Risaf(self.guard_number()), 0x310),
        };
        RegisterAccess {
            block,
            offset: self.below(size / 4) * 4 + self.below(20) / 19,
            direction: self.direction(),
            data: self.word(),
            secure: self.below(4) != 0,
            privileged: self.below(4) != 0,
        }
    }

    /// Any event but reset.
    pub fn event(&mut self) -> Event {
        match self.below(5) {
            0 => Event::Memory(self.memory_access()),
            1 => Event::Peripheral(PeripheralAccess {
                peripheral: self.below(140),
                purpose: [Purpose::Read, Purpose::Write, Purpose::Fetch][self.below(3) as usize],
                secure: self.flag(),
                privileged: self.flag(),
            }),
            2 => Event::Master(MasterAccess {
                master: self.below(14),
                guard: self.guard_number(),
                offset: self.offset(),
                width: 1,
                direction: self.direction(),
            }),
            _ => Event::Register(self.register_access()),
        }
    }
}
