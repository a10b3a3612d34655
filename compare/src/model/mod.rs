//! The device: controller, illegal access controller and memory guards.

mod answer;
mod bits;
mod device;
pub mod diff;
mod event;
mod guard;
mod guard_register;
mod iac;
mod map;
mod region;
mod rifsc;
mod rule;
mod shape;

pub use answer::{Answer, Reason, Rule};
pub use device::Device;
pub use event::{
    Block, Direction, Event, MasterAccess, MemoryAccess, PeripheralAccess, Purpose, RegisterAccess,
};
pub use guard::Guard;
pub use iac::{Iac, IISR};
pub use map::{lookup, spans, Span};
pub use region::{Region, Subregion};
pub use rifsc::{Rifsc, GUARDING, MASTERS, PPSR};
pub use shape::{shape_of, Bus, Shape, GUARDS, REGIONS_STORED, SHAPES};
