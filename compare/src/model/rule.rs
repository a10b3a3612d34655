//! Which rule governs an offset of a guard's window, and what it grants.

use super::answer::{Reason, Rule};
use super::bits::bit;
use super::region::{Region, Subregion};
use super::shape::Bus;

/// The CID that passes every compartment test, where the bus carries it.
const ANY_COMPARTMENT: u32 = 7;

/// Who asks, and for what.
#[derive(Clone, Copy)]
pub struct Asking {
    /// 0 to 7.
    pub cid: u32,
    pub write: bool,
    pub secure: bool,
    pub privileged: bool,
}

/// What the three tests give, each made over all that governs before the next.
struct Tests {
    security: bool,
    privilege: bool,
    /// Compartment and direction.
    compartment: bool,
}

impl Tests {
    /// The first test that fails is the reason.
    fn outcome(&self) -> Result<(), Reason> {
        if !self.security {
            return Err(Reason::Security);
        }
        if !self.privilege {
            return Err(Reason::Privilege);
        }
        if !self.compartment {
            return Err(Reason::Compartment);
        }
        Ok(())
    }
}

/// The governing rule at one offset of a guard on that bus.
pub struct Governing {
    bus: Bus,
    terms: Terms,
}

/// The rule with all that it demands.
enum Terms {
    Default,
    Base(BaseTerms),
    Subregion(SubregionTerms),
}

/// The terms of all enabled covering base regions; every one must grant.
struct BaseTerms {
    /// All have SEC 1, so each admits secure asking.
    secure: bool,
    /// All have SEC 0.
    nonsecure: bool,
    /// CIDs that some region wants privileged.
    privc: u32,
    /// CIDs that all regions enable.
    readers: u32,
    writers: u32,
}

/// The terms of all subregions that count.
struct SubregionTerms {
    /// All working SEC are 1.
    secure: bool,
    /// All working PRIV are 1.
    privileged: bool,
    /// CIDs that some subregion enables.
    readers: u32,
    writers: u32,
}

impl BaseTerms {
    fn none() -> BaseTerms {
        BaseTerms {
            secure: true,
            nonsecure: true,
            privc: 0,
            readers: 0xFF,
            writers: 0xFF,
        }
    }

    fn add(&mut self, region: &Region) {
        self.secure &= region.sec();
        self.nonsecure &= !region.sec();
        self.privc |= region.privc();
        self.readers &= region.readers();
        self.writers &= region.writers();
    }

    fn tests(&self, asking: Asking) -> Tests {
        let enabled = if asking.write {
            self.writers
        } else {
            self.readers
        };
        Tests {
            security: if asking.secure {
                self.secure
            } else {
                self.nonsecure
            },
            privilege: asking.privileged || !bit(self.privc, asking.cid),
            compartment: asking.cid == ANY_COMPARTMENT || bit(enabled, asking.cid),
        }
    }
}

impl SubregionTerms {
    fn none() -> SubregionTerms {
        SubregionTerms {
            secure: true,
            privileged: true,
            readers: 0,
            writers: 0,
        }
    }

    fn add(&mut self, base: &Region, subregion: &Subregion) {
        let srcid = subregion.srcid();
        self.secure &= subregion.sec() && base.sec();
        self.privileged &= subregion.private() && bit(base.privc(), srcid);
        self.readers |= u32::from(subregion.read_enabled()) << srcid;
        self.writers |= u32::from(subregion.write_enabled()) << srcid;
    }

    fn tests(&self, asking: Asking) -> Tests {
        let enabled = if asking.write {
            self.writers
        } else {
            self.readers
        };
        Tests {
            security: asking.secure == self.secure,
            privilege: asking.privileged || !self.privileged,
            compartment: if asking.cid == ANY_COMPARTMENT {
                enabled != 0
            } else {
                bit(enabled, asking.cid)
            },
        }
    }
}

/// Where no region covers; without a CID on the bus only two tests are made.
fn default_tests(bus: Bus, asking: Asking) -> Tests {
    Tests {
        security: asking.secure,
        privilege: asking.privileged,
        compartment: bus == Bus::Ahb || asking.cid == 1 || asking.cid == ANY_COMPARTMENT,
    }
}

impl Governing {
    /// Gathers the terms at an offset over a guard's own base regions.
    pub fn at(bus: Bus, regions: &[Region], offset: u32) -> Governing {
        let (mut base_terms, mut base_counts) = (BaseTerms::none(), false);
        let (mut subregion_terms, mut subregion_counts) = (SubregionTerms::none(), false);
        for region in regions.iter().filter(|region| region.holds(offset)) {
            base_counts = true;
            base_terms.add(region);
            for subregion in region.subregions.iter().filter(|s| s.holds(offset)) {
                subregion_counts = true;
                subregion_terms.add(region, subregion);
            }
        }
        let terms = if subregion_counts {
            Terms::Subregion(subregion_terms)
        } else if base_counts {
            Terms::Base(base_terms)
        } else {
            Terms::Default
        };
        Governing { bus, terms }
    }

    /// The rule if it grants, else why not.
    pub fn judge(&self, asking: Asking) -> Result<Rule, Reason> {
        let asking = Asking {
            cid: self.bus.cid(asking.cid),
            ..asking
        };
        let (rule, tests) = match &self.terms {
            Terms::Default => (Rule::Default, default_tests(self.bus, asking)),
            Terms::Base(terms) => (Rule::Base, terms.tests(asking)),
            Terms::Subregion(terms) => (Rule::Subregion, terms.tests(asking)),
        };
        tests.outcome().map(|()| rule)
    }

    /// All 64 kinds of asking; bit CID + 8*(write + 2*privileged + 4*secure).
    pub fn rights(&self) -> u64 {
        (0..64).fold(0, |rights, kind: u32| {
            let asking = Asking {
                cid: kind & 7,
                write: bit(kind, 3),
                privileged: bit(kind, 4),
                secure: bit(kind, 5),
            };
            rights | u64::from(self.judge(asking).is_ok()) << kind
        })
    }
}
