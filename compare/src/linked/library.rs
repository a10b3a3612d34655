//! The functions of `include/suthrain.h` in the libraries that have them.

use super::Access;

/// Ten functions of a library.
pub struct Library {
    pub(super) reset: unsafe extern "C" fn(*mut u32, usize) -> u64,
    pub(super) register:
        unsafe extern "C" fn(*mut u32, usize, u32, u32, u32, bool, u32, bool, bool) -> u64,
    pub(super) peripheral: unsafe extern "C" fn(*mut u32, usize, u32, u32, bool, bool) -> u64,
    pub(super) memory:
        unsafe extern "C" fn(*mut u32, usize, u32, u32, u32, bool, u32, bool, bool) -> u64,
    pub(super) master: unsafe extern "C" fn(*mut u32, usize, u32, u32, u32, u32, bool) -> u64,
    pub(super) line: unsafe extern "C" fn(*const u32, usize) -> u64,
    pub(super) map: unsafe extern "C" fn(*const u32, usize, u32, *mut u64, usize, *mut u64) -> u64,
    pub(super) lookup:
        unsafe extern "C" fn(*const u64, usize, u64, *mut u64, *mut u64, *mut u64) -> u64,
    pub(super) diff: unsafe extern "C" fn(
        u32,
        *const u64,
        usize,
        *const u64,
        usize,
        *mut u64,
        usize,
        *mut u64,
    ) -> u64,
    pub(super) batch:
        unsafe extern "C" fn(*mut u32, usize, *const Access, usize, *mut u64, usize) -> u64,
}

/// A library of that archive, by the names that its functions have there.
macro_rules! library {
    ($(#[$doc:meta])* $library:ident, $archive:literal, $reset:ident, $register:ident, $peripheral:ident, $memory:ident,
     $master:ident, $line:ident, $map:ident, $lookup:ident, $diff:ident, $batch:ident) => {
        #[link(name = $archive, kind = "static")]
        extern "C" {
            fn $reset(state: *mut u32, words: usize) -> u64;
            fn $register(state: *mut u32, words: usize, block: u32, guard: u32, offset: u32,
                         write: bool, data: u32, secure: bool, privileged: bool) -> u64;
            fn $peripheral(state: *mut u32, words: usize, peripheral: u32, operation: u32,
                           secure: bool, privileged: bool) -> u64;
            fn $memory(state: *mut u32, words: usize, guard: u32, offset: u32, width: u32,
                       write: bool, cid: u32, secure: bool, privileged: bool) -> u64;
            fn $master(state: *mut u32, words: usize, master: u32, guard: u32, offset: u32,
                       width: u32, write: bool) -> u64;
            fn $line(state: *const u32, words: usize) -> u64;
            fn $map(state: *const u32, words: usize, guard: u32, numbers: *mut u64,
                    count: usize, used: *mut u64) -> u64;
            fn $lookup(numbers: *const u64, count: usize, offset: u64, start: *mut u64,
                       end: *mut u64, rights: *mut u64) -> u64;
            fn $diff(guard: u32, before: *const u64, before_count: usize, after: *const u64,
                     after_count: usize, numbers: *mut u64, count: usize,
                     used: *mut u64) -> u64;
            fn $batch(state: *mut u32, words: usize, accesses: *const Access, count: usize,
                      answers: *mut u64, places: usize) -> u64;
        }
        $(#[$doc])*
        pub static $library: Library = Library {
            reset: $reset,
            register: $register,
            peripheral: $peripheral,
            memory: $memory,
            master: $master,
            line: $line,
            map: $map,
            lookup: $lookup,
            diff: $diff,
            batch: $batch,
        };
    };
}

#[rustfmt::skip]
library!(
    /// The proved library.
    PROVED, "capi", rif_reset, rif_register, rif_peripheral, rif_memory, rif_master, rif_line, rif_map, rif_lookup, rif_diff,
    rif_batch
);

#[rustfmt::skip]
library!(
    /// The same in plain C, for speed.
    YARDSTICK, "yardstick", yard_reset, yard_register, yard_peripheral, yard_memory, yard_master, yard_line, yard_map,
    yard_lookup, yard_diff, yard_batch
);
