//! Writes random scripts into files, as seeds for a fuzzer.

use compare::generate::damage::damaged;
use compare::generate::lines::script;
use compare::harness::random::Random;
use std::path::Path;
use std::process::ExitCode;

const HELP: &str = "\
Writes short random scripts, every other one damaged, into a directory.

    scripts DIRECTORY COUNT [SEED]
";

fn write(directory: &Path, count: usize, seed: u64) -> std::io::Result<()> {
    let mut random = Random::named(seed, "seeds");
    for number in 0..count {
        let lines = 1 + random.below(40);
        let mut text = script(&mut random, lines);
        if number % 2 == 1 {
            text = damaged(&mut random, &text);
        }
        std::fs::write(directory.join(format!("script-{number}")), text)?;
    }
    Ok(())
}

fn main() -> ExitCode {
    let arguments: Vec<String> = std::env::args().skip(1).collect();
    let number = |place: usize| arguments.get(place).map_or(Ok(1), |text| text.parse());
    let (Some(directory), Ok(count), Ok(seed)) = (arguments.first(), number(1), number(2)) else {
        eprint!("{HELP}");
        return ExitCode::from(2);
    };
    match write(Path::new(directory), count as usize, seed) {
        Ok(()) => ExitCode::SUCCESS,
        Err(trouble) => {
            eprintln!("{directory}: {trouble}");
            ExitCode::FAILURE
        }
    }
}
