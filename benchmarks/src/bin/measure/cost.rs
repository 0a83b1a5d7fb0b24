//! What a call costs: the cost of 2K rounds less that of K rounds, over K. So what comes before the rounds does not count.
//!
//! Instructions are counted by valgrind's callgrind, which writes its counters out and clears them at each call of `benchmarks_mark`.
//! Times are the least of several, the sides taking turns.

use crate::rows::Row;
use crate::sides::SIDES;
use std::fs;
use std::hint::black_box;
use std::io;
use std::path::Path;
use std::process::{Command, Stdio};
use std::time::Instant;

/// Rounds are multiples of 192, so that each of 2, 3, 8 or 64 routes and each rest of a tag has its turn equally often.
const COUNTED: u32 = 192;
const TIMED: u32 = 100 * 192;
const REPEATS: usize = 15;

/// The cost of one call on each side, in the order of `SIDES`.
pub type Costs = [f64; SIDES.len()];

/// Rounds of which each does many calls are fewer.
fn rounds(row: &Row, rounds: u32) -> u32 {
    (rounds / row.calls_in_round as u32).max(1)
}

/// The cost of a call by those of K and of 2K rounds.
fn of_a_call(row: &Row, k: u32, once: f64, twice: f64) -> f64 {
    (twice - once) / (f64::from(k) * row.calls_in_round as f64)
}

#[no_mangle]
#[inline(never)]
pub extern "C" fn benchmarks_mark() {
    black_box(());
}

/// Does every row's rounds, with a mark before the first and after each: what is run below callgrind. The first of each are not counted: they leave the
/// heap as those that follow will find it.
pub fn be_counted(rows: &[Row]) {
    benchmarks_mark();
    for row in rows {
        for side in &SIDES {
            for factor in [1, 1, 2] {
                (side.run)(&row.work, factor * rounds(row, COUNTED));
                benchmarks_mark();
            }
        }
    }
}

/// Instructions of one call, by rows.
pub fn counts(folder: &Path, rows: &[Row]) -> io::Result<Vec<Costs>> {
    let out = folder.join("callgrind");
    let _ = fs::remove_dir_all(&out);
    fs::create_dir_all(&out)?;
    let mut command = callgrind(&out.join("out"));
    command.arg("--dump-before=benchmarks_mark");
    succeed(command.arg(std::env::current_exe()?).arg("counted"))?;

    // the first part is what ran before the first mark
    let mut parts = (2..).map(|part| total(&out.join(format!("out.{part}"))));
    let mut next = || parts.next().expect("no last part");
    let mut all = Vec::new();
    for row in rows {
        let mut costs = [0.0; SIDES.len()];
        for cost in &mut costs {
            next()?;
            *cost = of_a_call(row, rounds(row, COUNTED), next()?, next()?);
        }
        all.push(costs);
    }
    Ok(all)
}

/// A command that counts the instructions of a program into a file. The environment is always the same, since it moves the stack, and the C library's
/// block moves go by where a block lies.
pub fn callgrind(out: &Path) -> Command {
    let mut command = Command::new("valgrind");
    command
        .env_clear()
        .env("PATH", "/usr/local/bin:/usr/bin:/bin")
        .arg("--tool=callgrind")
        .arg("--quiet")
        .arg(format!("--callgrind-out-file={}", out.display()))
        .stdout(Stdio::null());
    command
}

/// Runs a command that must succeed.
pub fn succeed(command: &mut Command) -> io::Result<()> {
    let status = command.status()?;
    if !status.success() {
        return Err(io::Error::other(format!("{command:?}: {status}")));
    }
    Ok(())
}

/// The instructions that a file of callgrind's counts.
pub fn total(file: &Path) -> io::Result<f64> {
    let text = fs::read_to_string(file)?;
    let line = text.lines().find_map(|line| line.strip_prefix("totals: "));
    line.and_then(|number| number.trim().parse().ok())
        .ok_or_else(|| io::Error::other(format!("{}: no total", file.display())))
}

/// Nanoseconds of one call, by rows.
pub fn times(rows: &[Row]) -> Vec<Costs> {
    rows.iter().map(time).collect()
}

fn time(row: &Row) -> Costs {
    let k = rounds(row, TIMED);
    let mut least = [[f64::INFINITY; 2]; SIDES.len()];
    for _ in 0..REPEATS {
        for (side, least) in SIDES.iter().zip(&mut least) {
            for (factor, least) in [1, 2].into_iter().zip(least) {
                let start = Instant::now();
                (side.run)(&row.work, factor * k);
                *least = least.min(start.elapsed().as_nanos() as f64);
            }
        }
    }
    least.map(|[once, twice]| of_a_call(row, k, once, twice))
}
