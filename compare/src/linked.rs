//! The proved library and the yardstick, by the functions of `include/suthrain.h`.

mod library;
mod machine;

pub use library::{Library, PROVED, YARDSTICK};
pub use machine::Linked;

use crate::model::{Direction, MasterAccess, MemoryAccess, PeripheralAccess, RegisterAccess};

/// The directory that the proved library was linked from.
pub const DIRECTORY: &str = env!("SUTHRAIN_LINKED_FROM");

/// The yardstick of the text program.
pub const YARDSTICK_PROGRAM: &str = env!("YARDSTICK_PROGRAM");

/// One memory access of a batch.
#[repr(C)]
#[derive(Clone, Copy, PartialEq)]
pub struct Access {
    guard: u32,
    offset: u32,
    width: u32,
    cid: u32,
    write: bool,
    privileged: bool,
    secure: bool,
}

impl From<&MemoryAccess> for Access {
    fn from(access: &MemoryAccess) -> Access {
        Access {
            guard: access.guard,
            offset: access.offset,
            width: access.width,
            cid: access.cid,
            write: access.direction == Direction::Write,
            privileged: access.privileged,
            secure: access.secure,
        }
    }
}

impl Library {
    pub fn reset(&self, state: &mut [u32]) -> u64 {
        unsafe { (self.reset)(state.as_mut_ptr(), state.len()) }
    }

    /// The block is named by its number; the access's own is not looked at.
    pub fn register(
        &self,
        state: &mut [u32],
        block: u32,
        guard: u32,
        access: &RegisterAccess,
    ) -> u64 {
        unsafe {
            (self.register)(
                state.as_mut_ptr(),
                state.len(),
                block,
                guard,
                access.offset,
                access.direction == Direction::Write,
                access.data,
                access.secure,
                access.privileged,
            )
        }
    }

    /// The operation is named by its number; the access's own is not looked at.
    pub fn peripheral(&self, state: &mut [u32], operation: u32, access: &PeripheralAccess) -> u64 {
        unsafe {
            (self.peripheral)(
                state.as_mut_ptr(),
                state.len(),
                access.peripheral,
                operation,
                access.secure,
                access.privileged,
            )
        }
    }

    pub fn memory(&self, state: &mut [u32], access: &MemoryAccess) -> u64 {
        unsafe {
            (self.memory)(
                state.as_mut_ptr(),
                state.len(),
                access.guard,
                access.offset,
                access.width,
                access.direction == Direction::Write,
                access.cid,
                access.secure,
                access.privileged,
            )
        }
    }

    pub fn master(&self, state: &mut [u32], access: &MasterAccess) -> u64 {
        unsafe {
            (self.master)(
                state.as_mut_ptr(),
                state.len(),
                access.master,
                access.guard,
                access.offset,
                access.width,
                access.direction == Direction::Write,
            )
        }
    }

    pub fn line(&self, state: &[u32]) -> u64 {
        unsafe { (self.line)(state.as_ptr(), state.len()) }
    }

    pub fn map(&self, state: &[u32], guard: u32, numbers: &mut [u64], used: &mut u64) -> u64 {
        let (first, count) = (numbers.as_mut_ptr(), numbers.len());
        unsafe { (self.map)(state.as_ptr(), state.len(), guard, first, count, used) }
    }

    pub fn lookup(&self, numbers: &[u64], offset: u64, row: &mut [u64; 3]) -> u64 {
        let (first, count) = (numbers.as_ptr(), numbers.len());
        let [start, end, rights] = row;
        unsafe { (self.lookup)(first, count, offset, start, end, rights) }
    }

    pub fn diff(
        &self,
        guard: u32,
        before: &[u64],
        after: &[u64],
        room: &mut [u64],
        used: &mut u64,
    ) -> u64 {
        unsafe {
            (self.diff)(
                guard,
                before.as_ptr(),
                before.len(),
                after.as_ptr(),
                after.len(),
                room.as_mut_ptr(),
                room.len(),
                used,
            )
        }
    }

    pub fn batch(&self, state: &mut [u32], accesses: &[Access], answers: &mut [u64]) -> u64 {
        unsafe {
            (self.batch)(
                state.as_mut_ptr(),
                state.len(),
                accesses.as_ptr(),
                accesses.len(),
                answers.as_mut_ptr(),
                answers.len(),
            )
        }
    }
}
