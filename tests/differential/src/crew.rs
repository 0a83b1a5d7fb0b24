//! Many jobs done in several threads, with a watch over the programs that they run, until all are
//! done or one finds something.

use crate::runner::Slot;
use std::sync::atomic::{AtomicBool, AtomicUsize, Ordering};
use std::sync::{Mutex, PoisonError};
use std::thread;
use std::time::Duration;

/// What was found first, and the number of jobs that were done without a finding.
pub struct Stopped {
    pub done: usize,
    pub finding: String,
}

/// Does the jobs 0 to `count` - 1. Each runs its programs in the slot that it is handed.
pub fn all<J>(count: usize, job: J) -> Result<(), Stopped>
where
    J: Fn(&Slot, usize) -> Result<(), String> + Sync,
{
    let workers = thread::available_parallelism().map_or(2, |count| count.get().clamp(2, 8));
    let slots: Vec<Slot> = (0..workers).map(|_| Slot::default()).collect();
    let crew = Crew {
        count,
        job,
        next: AtomicUsize::new(0),
        done: AtomicUsize::new(0),
        stop: AtomicBool::new(false),
        finding: Mutex::new(None),
    };
    let over = AtomicBool::new(false);
    thread::scope(|scope| {
        scope.spawn(|| watch(&slots, &over));
        thread::scope(|inner| {
            for slot in &slots {
                inner.spawn(|| crew.work(slot));
            }
        });
        over.store(true, Ordering::Relaxed);
    });
    let done = crew.done.load(Ordering::Relaxed);
    let finding = crew
        .finding
        .into_inner()
        .unwrap_or_else(PoisonError::into_inner);
    match finding {
        None if done == count => Ok(()),
        finding => Err(Stopped {
            done,
            finding: finding.unwrap_or_else(|| "not all inputs were run".to_string()),
        }),
    }
}

/// The jobs still to do, and what has been found.
struct Crew<J> {
    count: usize,
    job: J,
    next: AtomicUsize,
    done: AtomicUsize,
    stop: AtomicBool,
    finding: Mutex<Option<String>>,
}

impl<J: Fn(&Slot, usize) -> Result<(), String>> Crew<J> {
    /// Takes jobs until there are no more or something is found.
    fn work(&self, slot: &Slot) {
        while !self.stop.load(Ordering::Relaxed) {
            let number = self.next.fetch_add(1, Ordering::Relaxed);
            if number >= self.count {
                return;
            }
            if let Err(finding) = (self.job)(slot, number) {
                self.stop.store(true, Ordering::Relaxed);
                if let Ok(mut first) = self.finding.lock() {
                    first.get_or_insert(finding);
                }
                return;
            }
            self.done.fetch_add(1, Ordering::Relaxed);
        }
    }
}

/// Looks at the runs under way until all is over.
fn watch(slots: &[Slot], over: &AtomicBool) {
    while !over.load(Ordering::Relaxed) {
        thread::sleep(Duration::from_millis(100));
        for slot in slots {
            slot.watch();
        }
    }
}
