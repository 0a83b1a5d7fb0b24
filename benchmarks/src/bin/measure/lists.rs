//! The backup named in a list of candidates kept as records, each beside the one baseline that this call has. The documents set no target here: that of the
//! table form is a ratio to the election, and a list has no election.

use crate::rows::{row, Row, Table, NOT_BESIDE, SIZES};
use benchmarks::random::Random;
use benchmarks::rounds::Work;
use benchmarks::workload::{self, Families};

/// The records stand in no order.
pub fn rows() -> Vec<Row> {
    let mut rows = Vec::new();
    for algorithm in [2, 3] {
        for families in [Families::V4, Families::V6, Families::Mixed] {
            for routes in SIZES {
                let table = Table { families, routes };
                let addresses = table.addresses(&mut Random(3));
                let list = workload::candidates(&addresses, &mut Random(5));
                let name = format!("name the backup in a list under {algorithm}");
                let work = Work::NameBackupIn { list, algorithm };
                rows.push(row(&name, Some(table), NOT_BESIDE, work));
            }
        }
    }
    rows
}
