//! The tables, in Markdown: what a call costs on each side, ours as a ratio of each other side's, and whether the target is met. A target by time is
//! said in both tables and judged in that of times.

use crate::cost::Costs;
use crate::programs::Program;
use crate::rows::{Measure, Ratio, Row, Target};
use crate::sides::{ALONE, SIDES};
use benchmarks::workload::Families;

/// A table of instructions.
pub fn counts(rows: &[Row], counts: &[Costs]) {
    table(rows, counts, Measure::Instructions);
}

/// A table of times.
pub fn times(rows: &[Row], times: &[Costs]) {
    table(rows, times, Measure::Time);
}

/// A table of what was measured. Targets are judged that are said in this measure.
fn table(rows: &[Row], measured: &[Costs], measure: Measure) {
    let (unit, places, word) = match measure {
        Measure::Instructions => ("ins", 0, "instructions"),
        Measure::Time => ("ns", 1, "time"),
    };
    heading(&["Call", "Addresses", "Routes"], unit, &["Target", ""]);
    let (mut judged, mut met) = (0, 0);
    for (row, costs) in rows.iter().zip(measured) {
        let mut cells = start(row);
        cells.extend(numbers(costs, places));
        cells.push(said(&row.target));
        if row.target.measure == measure {
            let verdict = verdict(&row.target, costs);
            judged += 1;
            met += usize::from(verdict == "met");
            cells.push(verdict.into());
        } else {
            cells.push(String::new());
        }
        line(&cells);
    }
    println!("\nTargets by {word} met: {met} of {judged}.\n");
}

/// A table of instructions of rows in pairs: each side's cost of the second as a ratio of its own cost of the first, of which ours is judged.
pub fn pairs(rows: &[Row], counts: &[Costs], ratio: &Ratio) {
    let mut names = ["Call", "Addresses", "Routes"].map(String::from).to_vec();
    for side in &SIDES[..ALONE] {
        names.push(format!("{} ins, {}", side.name, ratio.first));
        names.extend([ratio.second, "ratio"].map(String::from));
    }
    names.extend(["Target", ""].map(String::from));
    line(&names);
    println!("|---|---|{}---|---|", "--:|".repeat(1 + 3 * ALONE));
    let (mut judged, mut met) = (0, 0);
    for (two, costs) in rows.chunks_exact(2).zip(counts.chunks_exact(2)) {
        let mut cells = start(&two[0]);
        for (first, second) in costs[0].iter().zip(&costs[1]).take(ALONE) {
            cells.push(format!("{first:.0}"));
            cells.push(format!("{second:.0}"));
            cells.push(format!("{:.2}", second / first));
        }
        let within = costs[1][0] / costs[0][0] <= ratio.most;
        judged += 1;
        met += usize::from(within);
        cells.push(format!("{:.2} ours", ratio.most));
        cells.push(if within { "met" } else { "missed" }.into());
        line(&cells);
    }
    println!("\nTargets {} met: {met} of {judged}.\n", ratio.judged);
}

/// A table of instructions of rows whose calls have one baseline, which both other sides call. Where nothing is asked nothing is judged.
pub fn beside_one(rows: &[Row], counts: &[Costs], size: &str) {
    let names = ["Call", "Addresses", size, "ours ins", "baseline ins"];
    let names = [&names[..], &["ours/baseline", "Target", ""]].concat();
    line(&names.into_iter().map(String::from).collect::<Vec<_>>());
    println!("|---|---|--:|--:|--:|--:|---|---|");
    let (mut judged, mut met) = (0, 0);
    for (row, costs) in rows.iter().zip(counts) {
        let mut cells = start(row);
        cells.extend(costs[..2].iter().map(|cost| format!("{cost:.0}")));
        cells.push(format!("{:.2}", costs[0] / costs[1]));
        match row.target.most[0] {
            None => cells.extend(["none".into(), String::new()]),
            Some(most) => {
                let verdict = verdict(&row.target, costs);
                judged += 1;
                met += usize::from(verdict == "met");
                cells.extend([format!("{most:.1}"), verdict.into()]);
            }
        }
        line(&cells);
    }
    if judged > 0 {
        println!("\nTargets beside the one baseline met: {met} of {judged}.");
    }
    println!();
}

pub fn programs(programs: &[Program]) {
    println!("| Bench program | Ins for a record | Ours of it | Target | | Records/s |");
    println!("|---|--:|--:|---|---|--:|");
    let ours = programs.iter().find(|program| program.name == "ours");
    for program in programs {
        let ratio = ours.map(|ours| ours.instructions / program.instructions);
        let target = program.target.filter(|_| ratio.is_some());
        line(&[
            program.name.into(),
            format!("{:.0}", program.instructions),
            ratio.map_or(String::new(), |ratio| format!("{ratio:.2}")),
            target.map_or(String::new(), |most| format!("{most:.2}")),
            match (ratio, target) {
                (Some(ratio), Some(most)) if ratio <= most => "met".into(),
                (Some(_), Some(_)) => "missed".into(),
                _ => String::new(),
            },
            program
                .speed
                .map_or(String::new(), |speed| format!("{speed:.0}")),
        ]);
    }
}

/// The names of the columns; routes and numbers stand to the right.
fn heading(first: &[&str], unit: &str, last: &[&str]) {
    let mut names: Vec<String> = first.iter().map(|name| name.to_string()).collect();
    names.extend(SIDES.iter().map(|side| format!("{} {unit}", side.name)));
    names.extend(SIDES[1..].iter().map(|side| format!("ours/{}", side.name)));
    names.extend(last.iter().map(|name| name.to_string()));
    line(&names);
    let right = 1 + 2 * SIDES.len() - 1;
    println!(
        "|{}{}{}",
        "---|".repeat(first.len() - 1),
        "--:|".repeat(right),
        "---|".repeat(last.len())
    );
}

fn line(cells: &[String]) {
    println!("| {} |", cells.join(" | "));
}

fn start(row: &Row) -> Vec<String> {
    let (addresses, routes) = match row.table {
        None => ("", String::new()),
        Some(table) => (families(table.families), table.routes.to_string()),
    };
    vec![row.name.clone(), addresses.into(), routes]
}

fn families(families: Families) -> &'static str {
    match families {
        Families::V4 => "IPv4",
        Families::V6 => "IPv6",
        Families::Mixed => "mixed",
    }
}

/// Each side's cost, and ours to each other side's.
fn numbers(costs: &Costs, places: usize) -> Vec<String> {
    let costs_shown = costs.iter().map(|cost| format!("{cost:.places$}"));
    let ratios = costs[1..]
        .iter()
        .map(|cost| format!("{:.2}", costs[0] / cost));
    costs_shown.chain(ratios).collect()
}

fn said(target: &Target) -> String {
    let parts = SIDES[1..].iter().zip(target.most);
    let parts = parts.filter_map(|(side, most)| Some(format!("{:.1} {}", most?, side.name)));
    let mut said = parts.collect::<Vec<_>>().join(", ");
    if target.measure == Measure::Time {
        said.push_str(" by time");
    }
    said
}

fn verdict(target: &Target, costs: &Costs) -> &'static str {
    let within =
        |(most, cost): (&Option<f64>, &f64)| most.is_none_or(|most| costs[0] / cost <= most);
    if target.most.iter().zip(&costs[1..]).all(within) {
        "met"
    } else {
        "missed"
    }
}
