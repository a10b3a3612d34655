//! The line program from standard input to standard output.

use std::io;

fn main() -> io::Result<()> {
    compare::text::run(io::stdin().lock(), io::stdout().lock())
}
