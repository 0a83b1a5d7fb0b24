//! The bench program over a baseline: `baseline_bench array`, `baseline_bench list` or `baseline_bench form`.

use benchmarks::{array, form, list, records};
use std::io;

fn main() -> io::Result<()> {
    let (mut input, mut output) = (io::stdin().lock(), io::stdout().lock());
    match std::env::args().nth(1).as_deref() {
        Some("array") => records::run::<array::Table>(&mut input, &mut output),
        Some("list") => records::run::<list::List>(&mut input, &mut output),
        Some("form") => records::run::<form::Table>(&mut input, &mut output),
        _ => Err(io::Error::other("baseline_bench: say array, list or form")),
    }
}
