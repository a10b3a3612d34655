//! Takes times and makes rows of a table.

use crate::linked::{Library, PROVED, YARDSTICK};
use std::time::{Duration, Instant};

/// One run of a side.
pub type Run = Box<dyn FnMut() -> Result<(), String>>;

/// Something all sides do; each run does it `count` times.
pub struct Item {
    pub name: String,
    pub count: usize,
    pub proved: Run,
    /// In plain C.
    pub yardstick: Run,
    pub second: Run,
}

/// An item that both libraries do alike, each on memory of its own.
pub fn item<Own: FnMut() + 'static>(
    name: &str,
    count: usize,
    library: impl Fn(&'static Library) -> Own,
    second: impl FnMut() + 'static,
) -> Item {
    Item {
        name: name.to_string(),
        count,
        proved: run_of(library(&PROVED)),
        yardstick: run_of(library(&YARDSTICK)),
        second: run_of(second),
    }
}

fn run_of(mut side: impl FnMut() + 'static) -> Run {
    Box::new(move || {
        side();
        Ok(())
    })
}

/// The least time of one measurement.
const LEAST: Duration = Duration::from_millis(20);

pub const HEAD: &str = "\
| what | proved, ns | C, ns | second, ns | proved / C | proved / second | noise, % |
|---|---:|---:|---:|---:|---:|---:|
";

/// The time of that many runs.
fn time(run: &mut Run, runs: u32) -> Result<Duration, String> {
    let started = Instant::now();
    for _ in 0..runs {
        run()?;
    }
    Ok(started.elapsed())
}

/// How many runs take the least time; they also warm up.
fn runs_for(run: &mut Run) -> Result<u32, String> {
    let mut runs = 1;
    while time(run, runs)? < LEAST {
        runs *= 2;
    }
    Ok(runs)
}

/// The median, and how far the middle half of the times lies apart, in percent.
fn middle(mut times: Vec<f64>) -> (f64, f64) {
    times.sort_by(f64::total_cmp);
    let at = |quarters: usize| times[(times.len() - 1) * quarters / 4];
    (at(2), 100.0 * (at(3) - at(1)) / at(2))
}

/// Measures all sides in turn, round by round.
pub fn row(rounds: usize, item: &mut Item) -> Result<String, String> {
    let mut sides = [&mut item.proved, &mut item.yardstick, &mut item.second];
    let mut runs = Vec::new();
    for side in &mut sides {
        runs.push(runs_for(side)?);
    }
    let mut times = [Vec::new(), Vec::new(), Vec::new()];
    for _ in 0..rounds {
        for ((side, &runs), times) in sides.iter_mut().zip(&runs).zip(&mut times) {
            let nanoseconds = time(side, runs)?.as_nanos() as f64;
            times.push(nanoseconds / f64::from(runs) / item.count as f64);
        }
    }
    let [proved, yardstick, second] = times.map(middle);
    let noise = proved.1.max(yardstick.1).max(second.1);
    Ok(format!(
        "| {} | {:.1} | {:.1} | {:.1} | {:.2} | {:.2} | {noise:.0} |\n",
        item.name,
        proved.0,
        yardstick.0,
        second.0,
        proved.0 / yardstick.0,
        proved.0 / second.0
    ))
}
