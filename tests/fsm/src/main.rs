//! Compares the proved state machine with a second one: `fsm_compare PROGRAM`.
//!
//! PROGRAM is the proved driver: it takes items of six octets and writes ten for each. The items
//! are every state with every event and place of the clock, then lists drawn from fixed seeds; the
//! whole answer is compared after each item. Before that, each of the slips in `machine` must show
//! on the same items, so that an agreement means something. The status is 1 on a difference.

#![forbid(unsafe_code)]

mod inputs;
mod machine;

use inputs::{drawn, systematic};
use machine::{answer, answer_with, Answer, Item, Machine, FIRST, SLIPS};
use std::env::args;
use std::io::{Read, Write};
use std::path::Path;
use std::process::{Command, ExitCode, Stdio};
use std::thread;

/// How many lists are drawn, and how long each is.
const LISTS: u64 = 4_000;
const LENGTH: usize = 100;

/// The octets that an item is handed in as.
fn octets_in(item: Item) -> [u8; 6] {
    let (kind, event, number) = match item {
        Item::Event { number, now } => (0, number, now),
        Item::Reading { now } => (1, 0, now),
        Item::Make { wait } => (2, 0, wait),
    };
    let [a, b, c, d] = number.to_be_bytes();
    [kind, event, a, b, c, d]
}

/// The octets that an answer is written as.
fn octets_out(a: Answer) -> [u8; 10] {
    let Machine { state, wait, since } = a.machine;
    let (w, s) = (wait.to_be_bytes(), since.to_be_bytes());
    [
        a.number, state, w[0], w[1], w[2], w[3], s[0], s[1], s[2], s[3],
    ]
}

/// What the program writes for these items.
fn written(program: &Path, items: &[Item]) -> std::io::Result<Vec<u8>> {
    let input: Vec<u8> = items.iter().flat_map(|&i| octets_in(i)).collect();
    let mut child = Command::new(program)
        .stdin(Stdio::piped())
        .stdout(Stdio::piped())
        .spawn()?;
    let mut stdin = child.stdin.take().expect("a piped standard input");
    let feeder = thread::spawn(move || stdin.write_all(&input));
    let mut output = Vec::new();
    child
        .stdout
        .take()
        .expect("a piped standard output")
        .read_to_end(&mut output)?;
    feeder.join().expect("the feeding thread")?;
    child.wait()?;
    Ok(output)
}

/// Compares the program with the second machine on one run of items. Says where they differ.
fn differs(name: &str, program: &Path, items: &[Item]) -> bool {
    let output = match written(program, items) {
        Ok(output) => output,
        Err(error) => {
            println!("fsm: {name}: the program did not run: {error}");
            return true;
        }
    };
    let mut m = FIRST;
    for (i, &item) in items.iter().enumerate() {
        let before = m;
        let right = answer(m, item);
        let told = output.get(i * 10..i * 10 + 10);
        if told != Some(&octets_out(right)[..]) {
            println!("fsm: {name}: item {i}, {item:?} on {before:?}: {told:?}, and not {right:?}");
            return true;
        }
        m = right.machine;
    }
    if output.len() != items.len() * 10 {
        println!(
            "fsm: {name}: {} octets for {} items",
            output.len(),
            items.len()
        );
        return true;
    }
    false
}

/// The slips that no item shows.
fn unseen(items: &[Item]) -> Vec<String> {
    let shows = |slip| {
        let mut m = FIRST;
        items.iter().any(|&item| {
            let right = answer(m, item);
            let wrong = answer_with(m, item, slip) != right;
            m = right.machine;
            wrong
        })
    };
    SLIPS
        .iter()
        .filter(|&&slip| !shows(slip))
        .map(|slip| format!("{slip:?}"))
        .collect()
}

fn main() -> ExitCode {
    let Some(program) = args().nth(1) else {
        eprintln!("usage: fsm_compare PROGRAM");
        return ExitCode::from(2);
    };
    let program = Path::new(&program);
    let every = systematic();
    let lists: Vec<Item> = (0..LISTS).flat_map(|seed| drawn(seed, LENGTH)).collect();
    for (name, items) in [("systematic", &every), ("drawn", &lists)] {
        let missed = unseen(items);
        if !missed.is_empty() {
            println!("fsm: {name}: the items do not show {}", missed.join(", "));
            return ExitCode::FAILURE;
        }
        if differs(name, program, items) {
            return ExitCode::FAILURE;
        }
    }
    let counted = every.len() + lists.len();
    println!(
        "fsm: {counted} items compared, {} slips told apart, no difference",
        SLIPS.len()
    );
    ExitCode::SUCCESS
}
