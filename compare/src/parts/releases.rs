//! The program `releases` against the second program's reading, on pairs of scripts in files.

use super::lines::damaged_script;
use crate::generate::lines::script;
use crate::harness::random::Random;
use crate::harness::shrink::delete;
use crate::text::releases as expected;
use std::fmt::Write;
use std::fs;
use std::path::{Path, PathBuf};
use std::process::{Command, Output};

/// What was printed on standard output and on standard error.
type Printed = (Vec<u8>, Vec<u8>);

/// The program, and a directory of its own for the scripts.
struct Files<'a> {
    program: &'a Path,
    names: [PathBuf; 2],
}

impl Files<'_> {
    fn run(&self, arguments: &[&Path]) -> Result<Output, String> {
        let run = Command::new(self.program).args(arguments).output();
        run.map_err(|error| format!("cannot run {}: {error}\n", self.program.display()))
    }

    fn printed(&self, pair: &[Vec<u8>; 2]) -> Result<Printed, String> {
        for (name, script) in self.names.iter().zip(pair) {
            fs::write(name, script).map_err(|error| format!("{}: {error}\n", name.display()))?;
        }
        let output = self.run(&[&self.names[0], &self.names[1]])?;
        Ok((output.stdout, output.stderr))
    }

    /// Every bad line is named on standard error; then nothing is printed.
    fn expected(&self, [old, new]: &[Vec<u8>; 2]) -> Printed {
        let bad = match expected(old, new) {
            Ok(sheets) => return (sheets, Vec::new()),
            Err(bad) => bad,
        };
        let mut told = String::new();
        for line in bad {
            let name = self.names[line.file - 1].display();
            writeln!(told, "{name}: line {} is bad", line.line).unwrap();
        }
        (Vec::new(), told.into_bytes())
    }

    fn differ(&self, pair: &[Vec<u8>; 2]) -> bool {
        self.printed(pair) != Ok(self.expected(pair))
    }

    /// A pair of as few lines as it can be, and what both sides print for it.
    fn report(&self, pair: [Vec<u8>; 2]) -> String {
        let mut small = pair;
        for side in 0..2 {
            let whole = small[side].clone();
            let lines: Vec<&[u8]> = whole.split_inclusive(|&byte| byte == b'\n').collect();
            let lines = delete(lines, |lines: &[&[u8]]| {
                let mut tried = small.clone();
                tried[side] = lines.concat();
                self.differ(&tried)
            });
            small[side] = lines.concat();
        }
        let mut text = String::new();
        for (name, script) in ["old", "new"].iter().zip(&small) {
            writeln!(text, "{name} script:\n{}", script.escape_ascii()).unwrap();
        }
        let (right, told) = self.expected(&small);
        writeln!(
            text,
            "expected:\n{}{}",
            right.escape_ascii(),
            told.escape_ascii()
        )
        .unwrap();
        match self.printed(&small) {
            Ok((out, error)) => {
                writeln!(
                    text,
                    "printed:\n{}{}",
                    out.escape_ascii(),
                    error.escape_ascii()
                )
                .unwrap();
            }
            Err(trouble) => text.push_str(&trouble),
        }
        text
    }

    /// Said on standard error, with nothing on standard output.
    fn refuses(&self, arguments: &[&Path]) -> Result<(), String> {
        let output = self.run(arguments)?;
        if output.stdout.is_empty() && !output.stderr.is_empty() {
            return Ok(());
        }
        Err(format!("taken: {arguments:?}\n"))
    }

    /// A wrong count of arguments, and files that cannot be opened or read.
    fn refusals(&self, missing: &Path, directory: &Path) -> Result<(), String> {
        let [old, new] = &self.names;
        self.refuses(&[])?;
        self.refuses(&[old])?;
        self.refuses(&[old, new, new])?;
        for other in [missing, directory] {
            self.refuses(&[old, other])?;
            self.refuses(&[other, new])?;
        }
        Ok(())
    }
}

/// Two scripts with a beginning in common, now and then damaged.
fn pair(random: &mut Random) -> [Vec<u8>; 2] {
    if random.below(4) == 0 {
        return [damaged_script(random, 60), damaged_script(random, 60)];
    }
    let common = random.below(300);
    let common = script(random, common);
    [(); 2].map(|()| {
        let more = random.below(40);
        [common.clone(), script(random, more)].concat()
    })
}

/// Runs so many pairs.
pub fn releases(program: &Path, random: &mut Random, pairs: u64) -> Result<String, String> {
    let directory = std::env::temp_dir().join(format!("releases-{}", std::process::id()));
    fs::create_dir_all(&directory)
        .map_err(|error| format!("{}: {error}\n", directory.display()))?;
    let files = Files {
        program,
        names: ["old", "new"].map(|name| directory.join(name)),
    };
    let mut bad = 0;
    let mut run = || {
        for _ in 0..pairs {
            let pair = pair(random);
            if files.differ(&pair) {
                return Err(files.report(pair));
            }
            bad += u64::from(expected(&pair[0], &pair[1]).is_err());
        }
        files.refusals(&directory.join("missing"), &directory)
    };
    let ran = run();
    let _ = fs::remove_dir_all(&directory);
    ran.map(|()| format!("{pairs} pairs of scripts, {bad} with bad lines"))
}
