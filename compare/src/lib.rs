//! A second model of the STM32N6 resource isolation framework (RIFSC, IAC,
//! RISAF) and of the line program around it, for differential testing; and
//! the comparison of both with the proved library and program.

pub mod model;
pub mod text;

pub mod generate;
pub mod harness;
pub mod mutants;
pub mod parts;

#[cfg(feature = "proved")]
pub mod bench;
#[cfg(feature = "proved")]
pub mod linked;
