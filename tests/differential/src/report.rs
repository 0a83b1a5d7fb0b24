//! What is printed when the two programs differ.

use crate::runner::Outcome;

const MAX_HEX: usize = 1 << 16;
const MAX_WHOLE: usize = 1 << 13;
const AROUND: usize = 5;

/// The report of one difference, ready to print.
pub fn difference(
    family: &str,
    index: u64,
    seed: u64,
    input: &[u8],
    reference: &Outcome,
    tested: &Outcome,
) -> String {
    let line = first_different_line(&reference.output, &tested.output);
    format!(
        "DIFFERENCE in family {family}, index {index}, seed {seed:#018x}, at line {}\n\
         input, {} octets (the whole of it: differential --input {family} {index}):\n{}\n\
         reference program:\n{}\ntested program:\n{}",
        line + 1,
        input.len(),
        hex(input),
        part(reference, line),
        part(tested, line),
    )
}

fn lines(output: &[u8]) -> Vec<&[u8]> {
    output.split_inclusive(|octet| *octet == b'\n').collect()
}

/// The number of lines that are equal at the start.
fn first_different_line(left: &[u8], right: &[u8]) -> usize {
    let pairs = lines(left).into_iter().zip(lines(right));
    pairs.take_while(|(left, right)| left == right).count()
}

/// The input in hex; a very long one only in part.
pub fn hex(input: &[u8]) -> String {
    let shown = &input[..input.len().min(MAX_HEX)];
    let mut text: String = shown.iter().map(|octet| format!("{octet:02X}")).collect();
    if shown.len() < input.len() {
        text.push_str(" ..");
    }
    text
}

/// The output; a long one only around the line.
fn part(outcome: &Outcome, line: usize) -> String {
    let mut text = if outcome.output.len() <= MAX_WHOLE {
        String::from_utf8_lossy(&outcome.output).into_owned()
    } else {
        let all = lines(&outcome.output);
        let shown = all
            .iter()
            .skip(line.saturating_sub(AROUND))
            .take(2 * AROUND);
        let shown: Vec<u8> = shown.flat_map(|line| line.iter().copied()).collect();
        format!("..\n{}..\n", String::from_utf8_lossy(&shown))
    };
    if !outcome.ended {
        text.push_str("(ended by a signal or by the time limit)\n");
    }
    text
}
