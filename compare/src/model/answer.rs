//! What an event gives back.

/// Which rule governed a granted memory access.
#[derive(Clone, Copy, Debug, PartialEq, Eq)]
pub enum Rule {
    Default,
    Base,
    Subregion,
}

/// The first test that a refused memory access failed.
#[derive(Clone, Copy, Debug, PartialEq, Eq)]
pub enum Reason {
    Security,
    Privilege,
    /// Compartment or direction.
    Compartment,
}

#[derive(Clone, Copy, Debug, PartialEq, Eq)]
pub enum Answer {
    /// Done; the word of a register read, else 0.
    Done(u32),
    /// A memory access granted by this rule.
    Granted(Rule),
    /// Rights fail, at a register or a peripheral.
    Refused,
    /// Rights fail at memory, for this reason.
    Denied(Reason),
    /// Write to a register that is locked whole.
    Locked,
    /// No register there, or none for this direction.
    NoRegister,
    /// No such guard, master or peripheral; CID or width out of range; numbers
    /// that are no map of the guard.
    NoTarget,
    /// Offset not a multiple of the width.
    Misaligned,
    /// Memory offset at or past the window's size.
    PastWindow,
    /// Fetch at a peripheral.
    Fetch,
    /// Lent memory of the wrong length.
    WrongLength,
}

impl Answer {
    /// The answer's number, 0 to 8.
    pub fn number(self) -> u32 {
        match self {
            Answer::Done(_) | Answer::Granted(_) => 0,
            Answer::Refused | Answer::Denied(_) => 1,
            Answer::Locked => 2,
            Answer::NoRegister => 3,
            Answer::NoTarget => 4,
            Answer::Misaligned => 5,
            Answer::PastWindow => 6,
            Answer::Fetch => 7,
            Answer::WrongLength => 8,
        }
    }

    /// The value that goes with the number: the word, the rule or the reason,
    /// else 0.
    pub fn value(self) -> u32 {
        match self {
            Answer::Done(word) => word,
            Answer::Granted(Rule::Base) => 1,
            Answer::Granted(Rule::Subregion) => 2,
            Answer::Denied(Reason::Security) => 1,
            Answer::Denied(Reason::Privilege) => 2,
            Answer::Denied(Reason::Compartment) => 3,
            _ => 0,
        }
    }

    /// Whether rights fail, which raises a flag.
    pub fn rights_fail(self) -> bool {
        matches!(self, Answer::Refused | Answer::Denied(_))
    }
}
