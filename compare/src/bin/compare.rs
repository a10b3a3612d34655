//! Compares the proved library and program with the second program.

use compare::linked::{Linked, DIRECTORY, PROVED};
use compare::parts::options::{read, Wish};
use compare::parts::run::run;
use std::path::Path;
use std::process::ExitCode;

fn main() -> ExitCode {
    match read(std::env::args().skip(1)) {
        Ok(Wish::Compare(options)) => {
            let well = run(&options, &mut Linked::new(&PROVED), Path::new(DIRECTORY));
            ExitCode::from(u8::from(!well))
        }
        Ok(Wish::Print(text)) => {
            print!("{text}");
            ExitCode::SUCCESS
        }
        Err(trouble) => {
            eprintln!("compare: {trouble}; see --help");
            ExitCode::from(2)
        }
    }
}
