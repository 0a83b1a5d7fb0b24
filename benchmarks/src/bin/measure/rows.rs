//! The rows of the table: a name, the routes and their families, rounds of calls, and the most that ours may cost.

use crate::sides::SIDES;
use benchmarks::answer::{Address, Circuit, Family};
use benchmarks::random::Random;
use benchmarks::rounds::Work;
use benchmarks::workload::{self, Families, Run, ESI, FLOW_ALGORITHMS};

pub const SIZES: [usize; 4] = [2, 3, 8, 64];
const FAMILIES: [Families; 3] = [Families::V4, Families::V6, Families::Mixed];
/// From so many routes on a new one, or one that goes, moves rows enough to be judged by time.
const MANY: usize = 8;

#[derive(Clone, Copy, PartialEq, Eq)]
pub enum Measure {
    Instructions,
    Time,
}

/// The most that ours may cost of what each other side costs; none where nothing is asked.
#[derive(Clone, Copy)]
pub struct Target {
    pub measure: Measure,
    pub most: [Option<f64>; 2],
}

pub const fn by_instructions(of_array: f64, of_list: Option<f64>) -> Target {
    Target {
        measure: Measure::Instructions,
        most: [Some(of_array), of_list],
    }
}

const DIGEST: Target = by_instructions(1.6, None);
/// Nothing is asked beside the other sides.
pub const NOT_BESIDE: Target = Target {
    measure: Measure::Instructions,
    most: [None, None],
};
/// Every row's rounds that are compared; of rounds that do more than so many calls each, two.
const COMPARED: usize = 577;
/// Where rows of words move.
const MOVED: Target = Target {
    measure: Measure::Time,
    most: [Some(1.6), Some(1.0)],
};

/// What every call is held to.
fn every_call(families: Families) -> Target {
    match families {
        Families::V4 => by_instructions(1.3, Some(1.1)),
        Families::V6 | Families::Mixed => by_instructions(1.5, None),
    }
}

/// What the rare calls are held to, fresh and returning.
fn rare_call(families: Families) -> Target {
    match families {
        Families::V4 => by_instructions(1.3, None),
        Families::V6 | Families::Mixed => by_instructions(1.5, None),
    }
}

/// What a call is held to that puts a row between others, or takes one out.
fn moving_call(table: Table) -> Target {
    if table.routes >= MANY {
        MOVED
    } else {
        every_call(table.families)
    }
}

/// Rows in pairs: what the first and the second of a pair are called, and the most that ours may cost by the second of what it costs by the first.
pub struct Ratio {
    pub first: &'static str,
    pub second: &'static str,
    /// What the targets are called that are judged.
    pub judged: &'static str,
    pub most: f64,
}

/// How many routes a table has, and of which families.
#[derive(Clone, Copy, Debug, PartialEq, Eq)]
pub struct Table {
    pub families: Families,
    pub routes: usize,
}

pub struct Row {
    pub name: String,
    /// None where the table does not matter.
    pub table: Option<Table>,
    pub calls_in_round: usize,
    pub target: Target,
    pub work: Work,
}

/// A row of one call to a round.
pub fn row(name: &str, table: Option<Table>, target: Target, work: Work) -> Row {
    Row {
        name: name.into(),
        table,
        calls_in_round: 1,
        target,
        work,
    }
}

/// Every answer of every round must be the same on all sides.
pub fn check(rows: &[Row]) {
    for Row {
        name,
        table,
        calls_in_round,
        work,
        ..
    } in rows
    {
        let most = if *calls_in_round > COMPARED {
            2
        } else {
            COMPARED
        };
        for rounds in [0, 1, most as u32] {
            let expected = (SIDES[0].answers)(work, rounds);
            for side in &SIDES[1..] {
                let same = (side.answers)(work, rounds) == expected;
                assert!(same, "{name}, {table:?}: {} answers otherwise", side.name);
            }
        }
    }
}

pub fn all() -> Vec<Row> {
    let mut rows = vec![
        row("fresh", None, rare_call(Families::V4), Work::Fresh),
        row("digest of a tag", None, DIGEST, Work::Digest),
    ];
    refused_early(&mut rows);
    for families in FAMILIES {
        for routes in SIZES {
            let table = Table { families, routes };
            announcements(&mut rows, table);
            elections(&mut rows, table);
            elections_by_circuits(&mut rows, table);
            if families == Families::V4 {
                elections_by_flow(&mut rows, table);
            }
            returning(&mut rows, table);
        }
    }
    // one kind of call after the other, each by families and then by size
    rows.sort_by_key(|row| row.name.clone());
    rows
}

impl Table {
    pub fn addresses(self, random: &mut Random) -> Vec<Address> {
        workload::addresses(self.routes, self.families, random)
    }
}

/// Announcements that are refused before the table is looked at.
fn refused_early(rows: &mut Vec<Row>) {
    let mut random = Random(1);
    let addresses = workload::addresses(64, Families::V4, &mut random);
    let runs = workload::runs(&ESI, &addresses, 2, false, &mut random);
    let mut push = |name, calls| {
        let runs = runs.clone();
        let work = Work::Announce { runs, calls };
        rows.push(row(name, None, every_call(Families::V4), work));
    };
    let mut wrong_type = runs.clone();
    wrong_type.iter_mut().for_each(|run| run.route[0] = 3);
    push("announce, refused: 2, not type 4", wrong_type);
    let elsewhere = workload::runs(&[0x55; 10], &addresses, 2, false, &mut random);
    push("announce, refused: 5, another segment", elsewhere);
}

fn announcements(rows: &mut Vec<Row>, table: Table) {
    let mut random = Random(1);
    let addresses = table.addresses(&mut random);
    let strangers = workload::addresses(64, table.families, &mut Random(2));
    let runs = workload::runs(&ESI, &addresses, 2, false, &mut random);
    let announce = |calls| Work::Announce {
        runs: runs.clone(),
        calls,
    };
    let replacing = workload::runs(&ESI, &addresses, 2, false, &mut random);
    let more = workload::runs(&ESI, &strangers, 2, false, &mut random);

    let every_call = every_call(table.families);
    let mut push = |name, target, work| rows.push(row(name, Some(table), target, work));
    push("announce, replace", every_call, announce(replacing));
    if table.routes == 64 {
        push(
            "announce, refused: 8, table full",
            every_call,
            announce(more),
        );
    }
    push(
        "withdraw and announce again, the pair",
        moving_call(table),
        Work::Again { runs: runs.clone() },
    );
    push(
        "withdraw, refused: 9, not present",
        every_call,
        Work::Withdraw {
            runs: runs.clone(),
            addresses: strangers,
        },
    );
    rows.push(Row {
        name: "announce, new: a fresh table filled, per route".into(),
        table: Some(table),
        calls_in_round: table.routes,
        target: moving_call(table),
        work: Work::Fill { runs },
    });
}

fn elections(rows: &mut Vec<Row>, table: Table) {
    for algorithm in 0..4 {
        let mut random = Random(3);
        let addresses = table.addresses(&mut random);
        let mut push = |name: &str, ac_df, ready: &[Address]| {
            let work = Work::Elect {
                runs: workload::runs(&ESI, &addresses, algorithm, ac_df, &mut Random(5)),
                ready: workload::rows(ready),
            };
            let name = format!("elect under {algorithm}{name}");
            rows.push(row(&name, Some(table), every_call(table.families), work));
        };
        let mut rising = addresses.clone();
        workload::sort(&mut rising);
        let mut scattered = addresses.clone();
        random.shuffle(&mut scattered);
        push("", false, &rising);
        push(", AC-DF, rising", true, &rising);
        push(", AC-DF, scattered", true, &scattered);
    }
}

/// Announcements, and Ethernet A-D routes by which every router is ready for each of some tags: so many that each router has its turn under algorithm 0
/// or, for 64 routers, as many as 256 Ethernet A-D routes have room for.
pub fn with_circuits(table: Table, algorithm: u8) -> (Vec<Run>, Vec<Circuit>, Vec<u32>) {
    let tags: Vec<u32> = match table.routes {
        64 => vec![138, 159, 181],
        8 => (101..=108).collect(),
        _ => (101..=106).collect(),
    };
    let mut random = Random(3);
    let addresses = table.addresses(&mut random);
    let mut circuits = workload::circuits(&addresses, &tags);
    random.shuffle(&mut circuits);
    let runs = workload::runs(&ESI, &addresses, algorithm, true, &mut Random(5));
    (runs, circuits, tags)
}

/// Elections over both tables. The tags have their turns.
fn elections_by_circuits(rows: &mut Vec<Row>, table: Table) {
    for algorithm in 0..4 {
        let (runs, circuits, tags) = with_circuits(table, algorithm);
        let work = Work::ElectByCircuits {
            runs,
            circuits,
            tags,
        };
        let name = format!("elect over both tables under {algorithm}");
        rows.push(row(&name, Some(table), every_call(table.families), work));
    }
}

/// Elections by flow, where all routes agree on the number that is set for its kind. 64 flows have their turns.
fn elections_by_flow(rows: &mut Vec<Row>, table: Table) {
    let [source_group, any_source] = FLOW_ALGORITHMS;
    let mut addresses = table.addresses(&mut Random(3));
    let runs = |algorithm| workload::runs(&ESI, &addresses, algorithm, false, &mut Random(5));
    let (of_source_group, of_any_source) = (runs(source_group), runs(any_source));
    workload::sort(&mut addresses);
    for (family, length) in [(Family::V4, 4), (Family::V6, 16)] {
        let mut push = |kind, work| {
            let name = format!("elect flow {kind} of {length} octets");
            rows.push(row(&name, Some(table), every_call(table.families), work));
        };
        let flows = || workload::flows(64, family, &mut Random(6));
        let both = Work::ElectSourceGroup {
            runs: of_source_group.clone(),
            flows: flows(),
            ready: workload::rows(&addresses),
        };
        push("(S,G)", both);
        let group = Work::ElectAnySource {
            runs: of_any_source.clone(),
            flows: flows(),
            ready: workload::rows(&addresses),
        };
        push("(*,G)", group);
    }
}

fn returning(rows: &mut Vec<Row>, table: Table) {
    for algorithm in [2, 3] {
        let mut random = Random(4);
        let addresses = table.addresses(&mut random);
        let work = Work::Returning {
            runs: workload::runs(&ESI, &addresses, algorithm, false, &mut random),
            families: table.families,
            algorithm,
        };
        let name = format!("returning under {algorithm}");
        rows.push(row(&name, Some(table), rare_call(table.families), work));
    }
}
