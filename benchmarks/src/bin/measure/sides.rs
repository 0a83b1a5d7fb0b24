//! The sides of a comparison: the proved calls, the two baselines that targets are said of, and the one in the named forms.

use benchmarks::answer::Segment;
use benchmarks::called::Called;
use benchmarks::rounds::{rounds, Dropped, Kept, Work};
use benchmarks::{array, form, list, proved};

pub struct Side {
    pub name: &'static str,
    /// Does a number of rounds, to be counted or timed.
    pub run: fn(&Work, u32),
    /// Does a number of rounds and keeps every answer.
    pub answers: fn(&Work, u32) -> Kept,
}

/// So many of the sides, from the first on, are shown where each is judged or shown by itself.
pub const ALONE: usize = 3;

/// Ours comes first, and the one without targets last.
pub const SIDES: [Side; 4] = [
    side::<proved::Table>("ours"),
    side::<Called<array::Table>>("(a)"),
    side::<Called<list::List>>("(b)"),
    side::<Called<form::Table>>("(f)"),
];

const fn side<T: Segment>(name: &'static str) -> Side {
    Side {
        name,
        run: |work, n| rounds::<T>(work, n, &mut Dropped),
        answers: |work, n| {
            let mut kept = Kept::default();
            rounds::<T>(work, n, &mut kept);
            kept
        },
    }
}
