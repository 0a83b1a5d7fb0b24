//! Elections with 16 ranges of tags set, each beside the same election with none: the same side, table and tag. So what is judged is a side's cost with
//! ranges as a ratio of its own without them.

use crate::rows::{row, Ratio, Row, Table, NOT_BESIDE, SIZES};
use benchmarks::random::Random;
use benchmarks::rounds::Work;
use benchmarks::workload::{self, Families, ESI};

/// The most that ours may cost with ranges of what it costs without.
pub const RATIO: Ratio = Ratio {
    first: "no range",
    second: "16 ranges",
    judged: "with ranges",
    most: 1.15,
};

/// Rows in pairs: without ranges, and with them. Where a range names the other algorithm, the election goes by that one's rule, which costs more or less by
/// itself.
pub fn pairs() -> Vec<Row> {
    let mut rows = Vec::new();
    for algorithm in [2, 3] {
        let in_one = |named| format!("in one of 16 ranges, which says {named}");
        for (tag, lies) in [
            (workload::TAG_OF_THE_OTHER, in_one(5 - algorithm)),
            (workload::TAG_OF_THE_SAME, in_one(algorithm)),
            (workload::TAG_OF_NONE, "in none of 16 ranges".into()),
        ] {
            for routes in SIZES {
                let families = Families::V4;
                let table = Table { families, routes };
                let name = format!("elect under {algorithm}, tag {lies}");
                for ranges in [Vec::new(), workload::ranges(algorithm)] {
                    let work = elect(table, algorithm, tag, ranges);
                    rows.push(row(&name, Some(table), NOT_BESIDE, work));
                }
            }
        }
    }
    rows
}

/// The routes and the ready list are those of the row without ranges in the large table.
fn elect(table: Table, algorithm: u8, tag: u32, ranges: Vec<u32>) -> Work {
    let mut addresses = table.addresses(&mut Random(3));
    let runs = workload::runs(&ESI, &addresses, algorithm, false, &mut Random(5));
    workload::sort(&mut addresses);
    Work::ElectWithRanges {
        runs,
        ranges,
        tag,
        ready: workload::rows(&addresses),
    }
}
