//! Times of the proved library and program next to plain C and to the second program.

use compare::bench::run;
use std::path::PathBuf;
use std::process::ExitCode;

const HELP: &str = "\
Measures the proved library and program next to the yardstick in plain C and to
the second program, in turn, and prints a table in Markdown: nanoseconds for
each access, map or line (medians), their ratios, and how far the middle half of
the rounds lies apart.

    bench [--rounds N] [--program PATH] [--filter PATH]

  --rounds N      rounds of each measurement (default 9)
  --program PATH  the proved program; without it no lines are measured
  --filter PATH   the second program (default: beside this one)
";

struct Options {
    rounds: usize,
    program: Option<PathBuf>,
    filter: PathBuf,
}

fn read(mut arguments: impl Iterator<Item = String>) -> Result<Options, String> {
    let this = std::env::current_exe().map_err(|error| error.to_string())?;
    let mut options = Options {
        rounds: 9,
        program: None,
        filter: this.with_file_name("filter"),
    };
    while let Some(option) = arguments.next() {
        let value = arguments.next().ok_or(HELP)?;
        match option.as_str() {
            "--rounds" => options.rounds = value.parse().map_err(|_| HELP)?,
            "--program" => options.program = Some(PathBuf::from(value)),
            "--filter" => options.filter = PathBuf::from(value),
            _ => return Err(HELP.to_string()),
        }
    }
    Ok(options)
}

fn main() -> ExitCode {
    let outcome = read(std::env::args().skip(1)).and_then(|options| {
        let program = options.program.as_deref();
        run(options.rounds.max(1), program, &options.filter)
    });
    match outcome {
        Ok(()) => ExitCode::SUCCESS,
        Err(trouble) => {
            eprint!("{trouble}");
            ExitCode::from(2)
        }
    }
}
