//! Random states, calls and scripts.

pub mod aim;
pub mod damage;
pub mod delegated;
pub mod diffs;
pub mod flags;
pub mod lent;
pub mod lines;
pub mod masters;
pub mod registers;
pub mod states;
pub mod story;
