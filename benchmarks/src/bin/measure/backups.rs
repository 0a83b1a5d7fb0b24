//! The backup named, each beside the election by the same side, table and tags. So what is judged is a side's cost of naming the second in line as a ratio of
//! its own cost of electing the first.

use crate::rows::{row, with_circuits, Ratio, Row, Table, NOT_BESIDE, SIZES};
use benchmarks::random::Random;
use benchmarks::rounds::Work;
use benchmarks::workload::{self, Families, ESI};

/// The most that ours may cost of what the election costs.
pub const RATIO: Ratio = Ratio {
    first: "election",
    second: "backup",
    judged: "of the backup",
    most: 2.0,
};

/// Rows in pairs: the election, and the backup named. With AC-DF every router is ready, by a rising list or by its Ethernet A-D routes.
pub fn pairs() -> Vec<Row> {
    let mut rows = Vec::new();
    for algorithm in [1, 2, 3] {
        for families in [Families::V4, Families::V6, Families::Mixed] {
            for routes in SIZES {
                let table = Table { families, routes };
                by_list(&mut rows, table, algorithm, false);
            }
        }
        for routes in SIZES {
            let families = Families::V4;
            by_list(&mut rows, Table { families, routes }, algorithm, true);
        }
        for routes in SIZES {
            let families = Families::V4;
            over_both(&mut rows, Table { families, routes }, algorithm);
        }
    }
    rows
}

/// The routes and the ready list are those of the election's row in the large table.
fn by_list(rows: &mut Vec<Row>, table: Table, algorithm: u8, ac_df: bool) {
    let mut addresses = table.addresses(&mut Random(3));
    let runs = workload::runs(&ESI, &addresses, algorithm, ac_df, &mut Random(5));
    workload::sort(&mut addresses);
    let ready = workload::rows(&addresses);
    let elect = Work::Elect {
        runs: runs.clone(),
        ready: ready.clone(),
    };
    let name = match ac_df {
        false => format!("name the backup under {algorithm}"),
        true => format!("name the backup under {algorithm}, AC-DF, rising"),
    };
    rows.push(row(&name, Some(table), NOT_BESIDE, elect));
    let backup = Work::NameBackup { runs, ready };
    rows.push(row(&name, Some(table), NOT_BESIDE, backup));
}

fn over_both(rows: &mut Vec<Row>, table: Table, algorithm: u8) {
    let (runs, circuits, tags) = with_circuits(table, algorithm);
    let elect = Work::ElectByCircuits {
        runs: runs.clone(),
        circuits: circuits.clone(),
        tags: tags.clone(),
    };
    let name = format!("name the backup over both tables under {algorithm}");
    rows.push(row(&name, Some(table), NOT_BESIDE, elect));
    let backup = Work::NameBackupByCircuits {
        runs,
        circuits,
        tags,
    };
    rows.push(row(&name, Some(table), NOT_BESIDE, backup));
}
