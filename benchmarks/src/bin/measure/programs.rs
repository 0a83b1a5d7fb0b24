//! The bench program's row: the proved program beside the reference's and those over the baselines, all on one generated run of records.

use crate::cost::{callgrind, succeed, total};
use benchmarks::records;
use std::fs::{self, File};
use std::io;
use std::path::{Path, PathBuf};
use std::process::{Command, Stdio};
use std::time::Instant;

const RECORDS: usize = 1_000_000;
const COUNTED: usize = 20_000;
const REPEATS: usize = 9;
const SEED: u64 = 7;

/// A program, its instructions for a record, the most that ours may have of them, and its records per second where times are taken.
pub struct Program {
    pub name: &'static str,
    pub instructions: f64,
    pub target: Option<f64>,
    pub speed: Option<f64>,
}

/// Measures each program that is there, after all have printed the same.
pub fn measured(folder: &Path, program: Option<&Path>, timed: bool) -> io::Result<Vec<Program>> {
    let input = generate(folder, RECORDS)?;
    let few = generate(folder, COUNTED)?;
    let more = generate(folder, 2 * COUNTED)?;
    let commands = commands(program)?;

    let mut outputs: Vec<Vec<u8>> = Vec::new();
    for command in &commands {
        let output = command.on(&input)?.stdout(Stdio::piped()).output()?;
        if outputs.first().is_some_and(|first| *first != output.stdout) {
            return Err(io::Error::other(format!(
                "{} prints otherwise",
                command.name
            )));
        }
        outputs.push(output.stdout);
    }
    let lines = outputs[0].iter().filter(|octet| **octet == b'\n').count();
    assert_eq!(lines, RECORDS, "every record prints its line");

    let mut least = vec![f64::INFINITY; commands.len()];
    for _ in 0..if timed { REPEATS } else { 0 } {
        for (command, least) in commands.iter().zip(&mut least) {
            let start = Instant::now();
            succeed(command.on(&input)?.stdout(Stdio::null()))?;
            *least = least.min(start.elapsed().as_secs_f64());
        }
    }

    let out = folder.join("callgrind.program");
    let mut programs = Vec::new();
    for (command, seconds) in commands.iter().zip(least) {
        let mut counted = [0.0; 2];
        for (input, counted) in [&few, &more].into_iter().zip(&mut counted) {
            let mut below = callgrind(&out);
            succeed(
                below
                    .arg(&command.path)
                    .args(command.word)
                    .stdin(File::open(input)?),
            )?;
            *counted = total(&out)?;
        }
        programs.push(Program {
            name: command.name,
            instructions: (counted[1] - counted[0]) / COUNTED as f64,
            target: command.target,
            speed: timed.then(|| RECORDS as f64 / seconds),
        });
    }
    Ok(programs)
}

struct Measured {
    name: &'static str,
    path: PathBuf,
    word: Option<&'static str>,
    target: Option<f64>,
}

impl Measured {
    fn on(&self, input: &Path) -> io::Result<Command> {
        let mut command = Command::new(&self.path);
        command.args(self.word).stdin(File::open(input)?);
        Ok(command)
    }
}

/// The proved program first, if it is there. The others stand beside this one or in the reference's folder.
fn commands(program: Option<&Path>) -> io::Result<Vec<Measured>> {
    let own = std::env::current_exe()?;
    let beside = own.with_file_name("baseline_bench");
    let reference = Path::new(env!("CARGO_MANIFEST_DIR"))
        .join("../tests/reference/target/release/bench_reference");
    let others = [
        ("(a)", &beside, Some("array"), Some(1.15)),
        ("(b)", &beside, Some("list"), None),
        ("(f)", &beside, Some("form"), None),
        ("reference", &reference, None, None),
    ];
    let ours = program.map(|path| ("ours", path.to_path_buf(), None, None));
    let others = others.map(|(name, path, word, target)| (name, path.clone(), word, target));
    let measured = |(name, path, word, target)| Measured {
        name,
        path,
        word,
        target,
    };
    Ok(ours.into_iter().chain(others).map(measured).collect())
}

fn generate(folder: &Path, count: usize) -> io::Result<PathBuf> {
    let file = folder.join(format!("records-{count}"));
    fs::write(&file, records::generated(count, SEED))?;
    Ok(file)
}
