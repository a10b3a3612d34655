//! The line program: lines of events in, lines of answers out. And what differs
//! between two scripts.

mod fields;
mod printer;
mod program;
mod reader;
mod releases;
mod stream;

pub use printer::put_diff;
pub use program::Program;
pub use reader::{read_line, Command, LINE_LIMIT};
pub use releases::{releases, BadLine};
pub use stream::run;
