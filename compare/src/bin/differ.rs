//! What differs between two releases: two scripts in, sheets out.

use compare::text::releases;
use std::ffi::OsString;
use std::io::Write;
use std::path::Path;
use std::process::ExitCode;

const HELP: &str = "\
Prints what differs between the maps after two scripts.

    differ OLD NEW
";

/// What is to be printed, or all that is wrong, a line each.
fn differ(files: [&Path; 2]) -> Result<Vec<u8>, Vec<String>> {
    let trouble = |file: &Path, what: String| format!("{}: {what}", file.display());
    let scripts = files.map(|file| {
        std::fs::read(file).map_err(|error| trouble(file, format!("cannot be read: {error}")))
    });
    match scripts {
        [Ok(old), Ok(new)] => releases(&old, &new).map_err(|bad| {
            let told = bad.iter().map(|bad| {
                let what = format!("line {} is bad", bad.line);
                trouble(files[bad.file - 1], what)
            });
            told.collect()
        }),
        scripts => Err(scripts.into_iter().filter_map(Result::err).collect()),
    }
}

fn main() -> ExitCode {
    let arguments: Vec<OsString> = std::env::args_os().skip(1).collect();
    let [old, new] = &arguments[..] else {
        eprint!("{HELP}");
        return ExitCode::from(2);
    };
    let mut out = std::io::stdout().lock();
    let mut print = |text: Vec<u8>| out.write_all(&text).and_then(|()| out.flush());
    let done = differ([Path::new(old), Path::new(new)])
        .and_then(|text| print(text).map_err(|error| vec![format!("standard output: {error}")]));
    let Err(troubles) = done else {
        return ExitCode::SUCCESS;
    };
    for trouble in troubles {
        eprintln!("{trouble}");
    }
    ExitCode::FAILURE
}
