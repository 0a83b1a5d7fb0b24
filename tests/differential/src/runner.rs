//! Runs a program on an input and takes its output. A run that takes too long is ended by
//! a watch, so that the whole test ends in bounded time.

use std::io::{self, Read, Write};
use std::path::Path;
use std::process::{Child, ChildStdin, Command, ExitStatus, Stdio};
use std::sync::{Mutex, MutexGuard, PoisonError};
use std::thread;
use std::time::{Duration, Instant};

/// The longest a run may take.
const TIME_LIMIT: Duration = Duration::from_secs(30);
/// The longest an output may be for each octet of input, and beyond.
const OUTPUT_FACTOR: u64 = 8;
const OUTPUT_SPARE: u64 = 1 << 16;

/// What a run gave: its output, and whether it ended by itself and not by a signal.
#[derive(PartialEq, Eq)]
pub struct Outcome {
    pub output: Vec<u8>,
    pub ended: bool,
}

/// The run under way in one thread, where the watch can see it.
#[derive(Default)]
pub struct Slot {
    running: Mutex<Option<(Instant, Child)>>,
}

impl Slot {
    fn lock(&self) -> MutexGuard<'_, Option<(Instant, Child)>> {
        self.running.lock().unwrap_or_else(PoisonError::into_inner)
    }

    /// Ends the run under way if it is over its time.
    pub fn watch(&self) {
        if let Some((start, child)) = self.lock().as_mut() {
            if start.elapsed() > TIME_LIMIT {
                let _ = child.kill();
            }
        }
    }

    /// Runs the program on the input, which is handed over in pieces of `piece` octets.
    pub fn run(&self, program: &Path, input: &[u8], piece: usize) -> io::Result<Outcome> {
        let (outcome, _) = self.run_with(Stdio::inherit(), program, input, piece)?;
        Ok(outcome)
    }

    /// The same, and what the program said on standard error.
    pub fn run_and_hear(
        &self,
        program: &Path,
        input: &[u8],
        piece: usize,
    ) -> io::Result<(Outcome, Vec<u8>)> {
        self.run_with(Stdio::piped(), program, input, piece)
    }

    fn run_with(
        &self,
        stderr: Stdio,
        program: &Path,
        input: &[u8],
        piece: usize,
    ) -> io::Result<(Outcome, Vec<u8>)> {
        let mut child = Command::new(program)
            .stdin(Stdio::piped())
            .stdout(Stdio::piped())
            .stderr(stderr)
            .spawn()?;
        let stdin = child.stdin.take();
        let stdout = child.stdout.take();
        let stderr = child.stderr.take();
        *self.lock() = Some((Instant::now(), child));
        let limit = OUTPUT_FACTOR * input.len() as u64 + OUTPUT_SPARE;
        let mut output = Vec::new();
        let mut said = Vec::new();
        thread::scope(|scope| {
            scope.spawn(|| feed(stdin, input, piece));
            if let Some(stdout) = stdout {
                stdout.take(limit).read_to_end(&mut output)?;
            }
            if let Some(stderr) = stderr {
                stderr.take(limit).read_to_end(&mut said)?;
            }
            Ok::<(), io::Error>(())
        })?;
        let status = self.wait()?;
        let ended = status.is_some_and(|status| status.code().is_some());
        Ok((Outcome { output, ended }, said))
    }

    /// Waits for the run to end. The watch must not be kept out, so it looks again and again.
    fn wait(&self) -> io::Result<Option<ExitStatus>> {
        loop {
            let mut running = self.lock();
            let Some((_, child)) = running.as_mut() else {
                return Ok(None);
            };
            if let Some(status) = child.try_wait()? {
                *running = None;
                return Ok(Some(status));
            }
            drop(running);
            thread::sleep(Duration::from_micros(50));
        }
    }
}

/// Writes the input. A program may end before it has read all, so errors are no matter.
fn feed(stdin: Option<ChildStdin>, input: &[u8], piece: usize) {
    let Some(mut stdin) = stdin else {
        return;
    };
    for part in input.chunks(piece.max(1)) {
        if stdin.write_all(part).is_err() {
            return;
        }
    }
}
