//! What is compared: something with a state in words that takes calls.

use super::call::{Call, Outcome};

pub trait Machine {
    /// Takes over a state; words of any count.
    fn load(&mut self, words: &[u32]);

    fn call(&mut self, call: &Call) -> Outcome;

    /// The state now, as many words as were loaded.
    fn words(&self) -> &[u32];
}
