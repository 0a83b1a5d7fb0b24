//! The differential test of two bench programs: `differential REFERENCE TESTED [FAMILY..]`.
//!
//! Many thousands of inputs are made from fixed seeds; both programs run on each of them and
//! their outputs must be equal octet by octet. With families named, only their inputs are run. On
//! the first difference the seed, the input and both outputs are printed and the status is 1.
//! `differential --input FAMILY INDEX` writes one input to standard output, `differential --list`
//! the names of the families.
//!
//! `differential --compact REFERENCE TESTED BENCH` compares two programs that make a log short, and
//! the short logs with the whole ones by what the bench program BENCH prints when both go on.
//!
//! The programs are taken as they are: nothing here shares code with any.

#![forbid(unsafe_code)]

mod compact;
mod crew;
mod pools;
mod random;
mod record;
mod report;
mod runner;
mod seeded;
mod segment;
mod systematic;
mod systematic_v6;

use crew::Stopped;
use random::seed_of;
use runner::Slot;
use std::env::args;
use std::io::{stdout, Write};
use std::path::{Path, PathBuf};
use std::process::ExitCode;

/// Makes an input from a seed or from an index.
type Make = fn(u64) -> Vec<u8>;

/// A family of inputs: drawn from a seed, or going through a range by index.
struct Family {
    name: &'static str,
    count: u64,
    make: Make,
    is_seeded: bool,
}

impl Family {
    fn input(&self, index: u64) -> Vec<u8> {
        if self.is_seeded {
            (self.make)(seed_of(self.name, index))
        } else {
            (self.make)(index)
        }
    }
}

/// All families. Those that go through a range come first and the long runs last, so that the
/// first difference to show is a simple one.
fn all_families() -> Vec<Family> {
    let family = |is_seeded| {
        move |(name, count, make)| Family {
            name,
            count,
            make,
            is_seeded,
        }
    };
    let ranges = systematic::families().into_iter();
    let v6_ranges = systematic_v6::families().into_iter();
    let seeded = seeded::families().into_iter().map(family(true));
    ranges
        .chain(v6_ranges)
        .map(family(false))
        .chain(seeded)
        .collect()
}

/// The two programs, and the inputs that both run on.
struct Comparison {
    reference: PathBuf,
    tested: PathBuf,
    families: Vec<Family>,
    jobs: Vec<(usize, u64)>,
}

impl Comparison {
    fn new(reference: &str, tested: &str, families: Vec<Family>) -> Comparison {
        let jobs = families
            .iter()
            .enumerate()
            .flat_map(|(place, family)| (0..family.count).map(move |index| (place, index)))
            .collect();
        Comparison {
            reference: PathBuf::from(reference),
            tested: PathBuf::from(tested),
            families,
            jobs,
        }
    }

    /// Runs both programs on one input.
    fn compare(&self, slot: &Slot, job: usize) -> Result<(), String> {
        let (place, index) = self.jobs[job];
        let family = &self.families[place];
        let input = family.input(index);
        let run = |program: &Path, piece| {
            slot.run(program, &input, piece)
                .map_err(|error| format!("{}: {error}", program.display()))
        };
        let reference = run(&self.reference, input.len())?;
        let tested = run(&self.tested, piece_length(&input, index))?;
        if reference == tested && tested.ended {
            return Ok(());
        }
        let seed = seed_of(family.name, index);
        Err(report::difference(
            family.name,
            index,
            seed,
            &input,
            &reference,
            &tested,
        ))
    }
}

/// How the tested program gets its input: whole or, if it is short, sometimes in small pieces.
fn piece_length(input: &[u8], index: u64) -> usize {
    match index % 4 {
        1 if input.len() < 2000 => 1 + (index / 4 % 7) as usize,
        _ => input.len(),
    }
}

fn main() -> ExitCode {
    let arguments: Vec<String> = args().skip(1).collect();
    let words: Vec<&str> = arguments.iter().map(String::as_str).collect();
    match words[..] {
        ["--input", family, index] => write_input(family, index),
        ["--list"] => list_families(),
        ["--compact", reference, tested, bench] => compact::compare_all(reference, tested, bench),
        [reference, tested, ref names @ ..] => match named_families(names) {
            Ok(families) => compare_all(&Comparison::new(reference, tested, families)),
            Err(name) => {
                eprintln!("differential: no family {name}");
                ExitCode::FAILURE
            }
        },
        _ => {
            eprintln!(
                "usage: differential REFERENCE TESTED [FAMILY..] | differential --list | \
                 differential --input FAMILY INDEX | \
                 differential --compact REFERENCE TESTED BENCH"
            );
            ExitCode::FAILURE
        }
    }
}

/// The families of these names; all if none is named. An unknown name is the error.
fn named_families<'a>(names: &[&'a str]) -> Result<Vec<Family>, &'a str> {
    let all = all_families();
    let unknown = |name: &&&str| all.iter().all(|family| family.name != **name);
    if let Some(name) = names.iter().find(unknown) {
        return Err(name);
    }
    let wanted = |family: &Family| names.is_empty() || names.contains(&family.name);
    Ok(all.into_iter().filter(wanted).collect())
}

fn list_families() -> ExitCode {
    for family in all_families() {
        println!("{} {}", family.name, family.count);
    }
    ExitCode::SUCCESS
}

fn write_input(name: &str, index: &str) -> ExitCode {
    let families = all_families();
    let family = families.iter().find(|family| family.name == name);
    let (Some(family), Ok(index)) = (family, index.parse()) else {
        eprintln!("differential: no input {index} in family {name}");
        return ExitCode::FAILURE;
    };
    if index >= family.count || stdout().write_all(&family.input(index)).is_err() {
        return ExitCode::FAILURE;
    }
    ExitCode::SUCCESS
}

/// Runs all inputs and prints the summary.
fn compare_all(comparison: &Comparison) -> ExitCode {
    let count = comparison.jobs.len();
    match crew::all(count, |slot, job| comparison.compare(slot, job)) {
        Ok(()) => {
            println!("differential: {count} inputs compared, 0 differences");
            ExitCode::SUCCESS
        }
        Err(Stopped { done, finding }) => {
            println!("{finding}");
            println!("differential: {done} inputs compared, then stopped");
            ExitCode::FAILURE
        }
    }
}
