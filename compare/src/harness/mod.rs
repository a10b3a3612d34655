//! Two machines side by side: one call after another, answers and memory
//! compared after each, and what differs made small.

pub mod call;
pub mod case;
pub mod duel;
mod kinds;
pub mod machine;
pub mod modelled;
pub mod names;
pub mod program;
pub mod random;
mod show;
pub mod shrink;
pub mod tally;
pub mod words;
