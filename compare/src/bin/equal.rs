//! Compares the yardstick with the proved library and program.

use compare::parts::equal::{run, Amount};
use std::path::PathBuf;
use std::process::ExitCode;

const HELP: &str = "\
Compares the yardstick in plain C with the proved library and program, before
one is timed beside the other.

    equal [options] --program PATH

  --program PATH  the proved program
  --seed N        where the random numbers start (default 1)
  --calls N       calls of the C interface (default 5000000)
  --lines N       lines through the programs (default 1000000)

The last line is 'N passed, 0 failed'. What differs is made small and printed,
and the exit status is 1.
";

fn read(mut arguments: impl Iterator<Item = String>) -> Result<(Amount, PathBuf), &'static str> {
    let (mut amount, mut program) = (
        Amount {
            seed: 1,
            calls: 5_000_000,
            lines: 1_000_000,
        },
        None,
    );
    while let Some(option) = arguments.next() {
        let value = arguments.next().ok_or(HELP)?;
        let number = || value.parse().map_err(|_| HELP);
        match option.as_str() {
            "--program" => program = Some(PathBuf::from(&value)),
            "--seed" => amount.seed = number()?,
            "--calls" => amount.calls = number()?,
            "--lines" => amount.lines = number()?,
            _ => return Err(HELP),
        }
    }
    Ok((amount, program.ok_or(HELP)?))
}

fn main() -> ExitCode {
    match read(std::env::args().skip(1)) {
        Ok((amount, program)) => ExitCode::from(u8::from(!run(&amount, &program))),
        Err(help) => {
            eprint!("{help}");
            ExitCode::from(2)
        }
    }
}
