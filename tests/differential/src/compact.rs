//! The comparison of two programs that make a log of bench records short. Both must write the same.
//! By the bench program a log is one of four: empty, with a refused first record, with a bad record,
//! or good. Of a good one the short log prints `p 0` and an `a 0` for each entry, and goes on as the
//! whole one: the same records after both print the same lines. For the others nothing is written;
//! standard error says so, but for an empty log.
//!
//! The logs are the inputs of the families: whole, or up to some record, and then the records after
//! it are those that both go on with. To these come logs that leave each number of entries.

use crate::crew::{self, Stopped};
use crate::pools::Families;
use crate::random::{seed_of, Random};
use crate::record;
use crate::report;
use crate::runner::Slot;
use crate::segment::{Profile, Segment};
use crate::{all_families, piece_length, Family};
use std::path::{Path, PathBuf};
use std::process::ExitCode;
use std::sync::atomic::{AtomicUsize, Ordering};

/// So many inputs of a family are logs, spread over all of them, and one of those that have few and
/// long ones; of these all inputs are.
const MOST_OF_A_FAMILY: u64 = 40;
const FEW: u64 = 10;
const ALL_OF: [&str; 4] = ["cut", "v6-cut", "both-full-table", "bad-records"];
const MAX_ENTRIES: usize = 64;
/// How many logs leave each number of entries.
const WITH_EACH_NUMBER: u64 = 6;

/// A log, and the records that it goes on with.
struct Case {
    log: Vec<u8>,
    more: Vec<u8>,
}

/// Where a case comes from.
enum Source {
    /// The input of a family, by its place and index.
    Family(usize, u64),
    /// A log that leaves a number of entries.
    Entries(usize, u64),
}

/// What the bench program makes of a log.
#[derive(Clone, Copy, PartialEq, Eq)]
enum Kind {
    Empty,
    RefusedPlate,
    BadRecord,
    Good,
}

struct Comparison {
    reference: PathBuf,
    tested: PathBuf,
    bench: PathBuf,
    families: Vec<Family>,
    sources: Vec<Source>,
    seen: Seen,
}

/// How many logs of each kind came up, good ones by their entries, and the lines after them.
struct Seen {
    empty: AtomicUsize,
    refused: AtomicUsize,
    bad: AtomicUsize,
    good: AtomicUsize,
    by_entries: [AtomicUsize; MAX_ENTRIES + 1],
    lines: AtomicUsize,
}

/// Runs all logs and prints the summary.
pub fn compare_all(reference: &str, tested: &str, bench: &str) -> ExitCode {
    let families = all_families();
    let comparison = Comparison {
        reference: PathBuf::from(reference),
        tested: PathBuf::from(tested),
        bench: PathBuf::from(bench),
        sources: sources(&families),
        families,
        seen: Seen::new(),
    };
    let count = comparison.sources.len();
    let result = crew::all(count, |slot, job| comparison.compare(slot, job));
    match result.and_then(|()| comparison.seen.enough(count)) {
        Ok(()) => {
            println!("compact: {}, 0 differences", comparison.seen.said());
            ExitCode::SUCCESS
        }
        Err(Stopped { done, finding }) => {
            println!("{finding}\ncompact: {done} logs compared, then stopped");
            ExitCode::FAILURE
        }
    }
}

fn sources(families: &[Family]) -> Vec<Source> {
    let mut sources = Vec::new();
    for entries in 0..=MAX_ENTRIES {
        sources.extend((0..WITH_EACH_NUMBER).map(|index| Source::Entries(entries, index)));
    }
    for (place, family) in families.iter().enumerate() {
        let taken = match family.count {
            count if ALL_OF.contains(&family.name) => count,
            0..FEW => 1,
            count => count.min(MOST_OF_A_FAMILY),
        };
        let spread = (0..taken).map(|number| number * family.count / taken);
        sources.extend(spread.map(|index| Source::Family(place, index)));
    }
    sources
}

impl Comparison {
    /// Where a case comes from, in words, and the case.
    fn case(&self, job: usize) -> (String, Case) {
        match self.sources[job] {
            Source::Entries(entries, index) => {
                let name = format!("log {index} that leaves {entries} entries");
                (name, case_of_entries(entries, index))
            }
            Source::Family(place, index) => {
                let family = &self.families[place];
                let name = format!("log by input {index} of family {}", family.name);
                (name, case_of_input(family, index))
            }
        }
    }

    /// Runs all programs on one log.
    fn compare(&self, slot: &Slot, job: usize) -> Result<(), String> {
        let (name, case) = self.case(job);
        self.compare_case(slot, job, &case).map_err(|finding| {
            let shown = [("log", &case.log), ("more", &case.more)].map(|(word, octets)| {
                format!("{word}, {} octets:\n{}", octets.len(), report::hex(octets))
            });
            format!("DIFFERENCE in {name}: {finding}\n{}", shown.join("\n"))
        })
    }

    fn compare_case(&self, slot: &Slot, job: usize, case: &Case) -> Result<(), String> {
        let Case { log, more } = case;
        let short = |program: &Path, piece| {
            let run = slot.run_and_hear(program, log, piece);
            let (outcome, said) = run.map_err(|error| told(program, error))?;
            if !outcome.ended {
                return Err(told(program, "ended by a signal or by the time limit"));
            }
            Ok((outcome.output, !said.is_empty()))
        };
        let lines = |log: &[u8]| {
            let run = slot.run(&self.bench, log, log.len());
            let outcome = run.map_err(|error| told(&self.bench, error))?;
            Ok::<Vec<u8>, String>(outcome.output)
        };
        let head = lines(log)?;
        let kind = Kind::of(&head);
        let (expected, _) = short(&self.reference, log.len())?;
        let (written, has_spoken) = short(&self.tested, piece_length(log, job as u64))?;
        if written != expected {
            return Err(format!(
                "the reference writes\n{}\nand the tested program\n{}",
                report::hex(&expected),
                report::hex(&written)
            ));
        }
        if written.is_empty() == (kind == Kind::Good) {
            return Err(format!("{} octets are written", written.len()));
        }
        let must_speak = matches!(kind, Kind::RefusedPlate | Kind::BadRecord);
        if has_spoken != must_speak {
            let word = if has_spoken { "something" } else { "nothing" };
            return Err(format!("{word} is said on standard error"));
        }
        self.seen.note(kind);
        if kind != Kind::Good {
            return Ok(());
        }

        let entries = record::ends(&written).len() - 2;
        let own = format!("p 0\n{}", "a 0\n".repeat(entries)).into_bytes();
        let whole = lines(&[&log[..], more].concat())?;
        let short = lines(&[&written[..], more].concat())?;
        let (Some(whole), Some(short)) =
            (whole.strip_prefix(&head[..]), short.strip_prefix(&own[..]))
        else {
            let shown = String::from_utf8_lossy(&short);
            return Err(format!("the short log, going on, prints\n{shown}"));
        };
        if whole != short {
            return Err(format!(
                "going on, the whole log prints\n{}\nand the short one\n{}",
                String::from_utf8_lossy(whole),
                String::from_utf8_lossy(short)
            ));
        }
        self.seen.note_good(entries, short)
    }
}

fn told(program: &Path, what: impl std::fmt::Display) -> String {
    format!("{}: {what}", program.display())
}

impl Kind {
    /// By what the bench program prints.
    fn of(lines: &[u8]) -> Kind {
        if lines.is_empty() {
            Kind::Empty
        } else if lines == b"x 16\n" || lines.ends_with(b"\nx 16\n") {
            Kind::BadRecord
        } else if lines.starts_with(b"p 0\n") {
            Kind::Good
        } else {
            Kind::RefusedPlate
        }
    }
}

impl Seen {
    fn new() -> Seen {
        Seen {
            empty: AtomicUsize::new(0),
            refused: AtomicUsize::new(0),
            bad: AtomicUsize::new(0),
            good: AtomicUsize::new(0),
            by_entries: [const { AtomicUsize::new(0) }; MAX_ENTRIES + 1],
            lines: AtomicUsize::new(0),
        }
    }

    fn note(&self, kind: Kind) {
        let count = match kind {
            Kind::Empty => &self.empty,
            Kind::RefusedPlate => &self.refused,
            Kind::BadRecord => &self.bad,
            Kind::Good => &self.good,
        };
        count.fetch_add(1, Ordering::Relaxed);
    }

    fn note_good(&self, entries: usize, lines: &[u8]) -> Result<(), String> {
        let Some(count) = self.by_entries.get(entries) else {
            return Err(format!("{entries} entries"));
        };
        count.fetch_add(1, Ordering::Relaxed);
        let lines = lines.iter().filter(|octet| **octet == b'\n').count();
        self.lines.fetch_add(lines, Ordering::Relaxed);
        Ok(())
    }

    fn said(&self) -> String {
        let [empty, refused, bad, good, full, lines] = [
            &self.empty,
            &self.refused,
            &self.bad,
            &self.good,
            &self.by_entries[MAX_ENTRIES],
            &self.lines,
        ]
        .map(|count| count.load(Ordering::Relaxed));
        format!(
            "{good} good logs compared, {full} of them with {MAX_ENTRIES} entries, and {lines} \
             lines after them; {bad} logs with a bad record, {refused} with a refused plate, \
             {empty} empty"
        )
    }

    /// Whether enough of each kind came up, and every number of entries.
    fn enough(&self, done: usize) -> Result<(), Stopped> {
        let missing = self
            .by_entries
            .iter()
            .position(|count| count.load(Ordering::Relaxed) < WITH_EACH_NUMBER as usize);
        let few = [
            (&self.empty, 1),
            (&self.refused, 100),
            (&self.bad, 500),
            (&self.good, 1000),
            (&self.by_entries[MAX_ENTRIES], 50),
            (&self.lines, 50_000),
        ]
        .iter()
        .any(|(count, least)| count.load(Ordering::Relaxed) < *least);
        if few || missing.is_some() {
            let finding = format!("too few came up: {} (entries: {missing:?})", self.said());
            return Err(Stopped { done, finding });
        }
        Ok(())
    }
}

/// An input of a family: the whole of it, and then all its records but the first once more; or, of
/// most, its records up to one of them, and then the others.
fn case_of_input(family: &Family, index: u64) -> Case {
    let input = family.input(index);
    let ends = record::ends(&input);
    let mut random = Random::new(!seed_of(family.name, index));
    let is_whole = ALL_OF.contains(&family.name) || ends.len() < 3 || random.chance(30);
    if is_whole {
        let first = ends.get(1).copied().unwrap_or(input.len());
        return Case {
            more: input[first..].to_vec(),
            log: input,
        };
    }
    let place = ends[random.between(1, ends.len() - 1)];
    let (log, more) = input.split_at(place);
    Case {
        log: log.to_vec(),
        more: more.to_vec(),
    }
}

/// A log that leaves this many entries, some of them replaced, and others withdrawn; then calls of
/// every kind.
fn case_of_entries(entries: usize, index: u64) -> Case {
    let seed = seed_of("entries", 64 * index + entries as u64);
    let mut random = Random::new(!seed);
    let families = match index % 2 {
        0 => Families::Both,
        _ => Families::OnlyV4,
    };
    let profile = Profile {
        algorithms: match index % 3 {
            0 => (0..=31).collect(),
            _ => vec![random.below(4) as u8],
        },
        ac_df: random.pick(&[0, 50, 100]),
        dp: 50,
        bare: 20,
        preferences: vec![0, 1, 500, 32_767, 65_535],
    };
    // one more than stay, for the one that is withdrawn
    let mut segment = Segment::new(seed, families, entries + 1, profile);
    let gone = segment.pool.remove(0);
    if entries < MAX_ENTRIES {
        segment.announce(gone);
    }
    segment.fill();
    segment.withdraw(gone);
    for _ in 0..entries / 2 {
        let address = segment.address();
        segment.announce(address);
    }
    segment.query();
    let log = std::mem::take(&mut segment.octets);
    let ready = segment.pool.clone();
    segment.query_row(&ready);
    segment.steps(30);
    segment.query_row(&ready);
    Case {
        log,
        more: segment.octets,
    }
}
