//! Which register of a guard lies at an offset.

#[derive(Clone, Copy)]
pub enum GuardRegister {
    Cr,
    Iasr,
    Iacr,
    Iaesr,
    Iaddr,
    /// A register of the base region of that index, from 0.
    Base(usize, BasePart),
    /// CFGR, START or END of a subregion of that base region.
    Subregion(usize, Side, SubregionPart),
}

#[derive(Clone, Copy)]
pub enum Side {
    A,
    B,
}

/// Registers under the guard's own lock; NEST is one of them.
#[derive(Clone, Copy)]
pub enum BasePart {
    Cfgr,
    Start,
    End,
    Cidcfgr,
    Nest(Side),
}

/// Registers that can be delegated, under the subregion's RLOCK.
#[derive(Clone, Copy)]
pub enum SubregionPart {
    Cfgr,
    Start,
    End,
}

impl GuardRegister {
    /// The register at a word-aligned offset in a guard of that many regions.
    pub fn at(offset: u32, regions: usize) -> Option<GuardRegister> {
        match offset {
            0x000 => Some(GuardRegister::Cr),
            0x008 => Some(GuardRegister::Iasr),
            0x00C => Some(GuardRegister::Iacr),
            0x020 => Some(GuardRegister::Iaesr),
            0x024 => Some(GuardRegister::Iaddr),
            0x040.. => {
                let index = (offset / 0x40 - 1) as usize;
                if index < regions {
                    region_register(index, offset % 0x40)
                } else {
                    None
                }
            }
            _ => None,
        }
    }
}

fn region_register(index: usize, place: u32) -> Option<GuardRegister> {
    let base = |part| Some(GuardRegister::Base(index, part));
    let subregion = |side, part| Some(GuardRegister::Subregion(index, side, part));
    match place {
        0x00 => base(BasePart::Cfgr),
        0x04 => base(BasePart::Start),
        0x08 => base(BasePart::End),
        0x0C => base(BasePart::Cidcfgr),
        0x10 => subregion(Side::A, SubregionPart::Cfgr),
        0x14 => subregion(Side::A, SubregionPart::Start),
        0x18 => subregion(Side::A, SubregionPart::End),
        0x1C => base(BasePart::Nest(Side::A)),
        0x20 => subregion(Side::B, SubregionPart::Cfgr),
        0x24 => subregion(Side::B, SubregionPart::Start),
        0x28 => subregion(Side::B, SubregionPart::End),
        0x2C => base(BasePart::Nest(Side::B)),
        _ => None,
    }
}
