//! The harness: `measure instructions DIR [PROGRAM]` counts and prints; `measure times DIR [PROGRAM]` also takes the times, which says something
//! only where nothing else runs; `measure counted` is what it runs below callgrind. DIR takes what is generated.
//!
//! - `sides`: the four sides of a comparison
//! - `rows`: the rows of the table, each rounds of calls
//! - `ranges`: rows in pairs, without ranges of tags and with them, for a table of their own
//! - `backups`: rows in pairs, an election and the backup named, for a table of their own
//! - `lists`: rows of the backup named in a list of candidates, for a table of their own
//! - `searches`: rows of searches through two dumps of records, for a table of their own
//! - `cost`: instructions and time of a call, by the difference of 2K and K rounds
//! - `programs`: the bench program's rows
//! - `print`: the tables

mod backups;
mod cost;
mod lists;
mod print;
mod programs;
mod ranges;
mod rows;
mod searches;
mod sides;

use std::io;
use std::path::Path;

fn main() -> io::Result<()> {
    let words: Vec<String> = std::env::args().collect();
    let words: Vec<&str> = words.iter().map(String::as_str).collect();
    // one table after the other
    let tables = [
        rows::all(),
        ranges::pairs(),
        backups::pairs(),
        lists::rows(),
        searches::rows(),
    ];
    let lengths = tables.each_ref().map(Vec::len);
    let rows = tables.into_iter().flatten().collect::<Vec<_>>();
    let (timed, folder, program) = match words[1..] {
        ["counted"] => {
            cost::be_counted(&rows);
            return Ok(());
        }
        ["instructions", folder] => (false, folder, None),
        ["instructions", folder, program] => (false, folder, Some(Path::new(program))),
        ["times", folder] => (true, folder, None),
        ["times", folder, program] => (true, folder, Some(Path::new(program))),
        _ => {
            return Err(io::Error::other(
                "measure: instructions or times, DIR [PROGRAM]",
            ))
        }
    };
    let folder = Path::new(folder);

    rows::check(&rows);
    let counts = cost::counts(folder, &rows)?;
    let mut end = 0;
    let [of_calls, of_ranges, of_backups, of_lists, of_searches] = lengths.map(|length| {
        end += length;
        (&rows[end - length..end], &counts[end - length..end])
    });
    print::counts(of_calls.0, of_calls.1);
    print::pairs(of_ranges.0, of_ranges.1, &ranges::RATIO);
    print::pairs(of_backups.0, of_backups.1, &backups::RATIO);
    print::beside_one(of_lists.0, of_lists.1, "Records");
    print::beside_one(of_searches.0, of_searches.1, "Routes");
    if timed {
        print::times(of_calls.0, &cost::times(of_calls.0));
    }
    print::programs(&programs::measured(folder, program, timed)?);
    Ok(())
}
