//! What `instructions.sh` needs: runs whose instructions are counted, scripts, and the yardstick's place.

use compare::bench::count::run;
use compare::generate::lines::{memory_script, script};
use compare::harness::random::Random;
use compare::linked::YARDSTICK_PROGRAM;
use std::io::Write;
use std::process::ExitCode;

const HELP: &str = "\
Runs each row of a table, to be counted; see instructions.sh.

    count calls|regions
    count mem|mixed LINES   prints a script of the benchmarks
    count yardstick         prints where the text program in C is
";

fn print(script: &[u8]) -> Result<(), String> {
    let printed = std::io::stdout().write_all(script);
    printed.map_err(|error| format!("{error}\n"))
}

fn obey(arguments: &[&str]) -> Result<(), String> {
    let lines = |text: &str| text.parse().map_err(|_| HELP.to_string());
    let mut random = Random::new(1);
    match arguments {
        ["yardstick"] => print(format!("{YARDSTICK_PROGRAM}\n").as_bytes()),
        ["mem", count] => print(&memory_script(&mut random, lines(count)?)),
        ["mixed", count] => print(&script(&mut random, lines(count)?)),
        [table] => run(table),
        _ => Err(HELP.to_string()),
    }
}

fn main() -> ExitCode {
    let arguments: Vec<String> = std::env::args().skip(1).collect();
    let arguments: Vec<&str> = arguments.iter().map(String::as_str).collect();
    match obey(&arguments) {
        Ok(()) => ExitCode::SUCCESS,
        Err(trouble) => {
            eprint!("{trouble}");
            ExitCode::from(2)
        }
    }
}
