//! Writes the stored test vectors of Sweep and their results into the folder of the program that runs
//! them, or, with `--check`, compares what is stored there with a fresh computation.
//!
//! Use: `vectors_sweep [--check] FOLDER`, or `vectors_sweep --list` to see which lines of the results
//! belong to which family.

use reference::family;
use reference::sweep::sweep;
use reference::sweeps::paper::{self, Reply};
use reference::sweeps::{arrivals, families, line, stored, version_2, Record, ARRIVALS, PAPER};
use reference::tool::{run, Stored};
use std::process::ExitCode;

fn main() -> ExitCode {
    run("vectors_sweep", list, vectors)
}

/// The records and their results.
fn vectors() -> Stored {
    Stored::vectors("data/sweeps.bin", &families(), stored, line)
}

/// Prints each family, how often each answer comes, and what each case written by hand tries and must give.
fn list() {
    family::list(&families(), stored, |family, first| {
        println!("  answers 0 to 6 and 16: {:?}", answers(&family.records));
        let cases = match family.name {
            PAPER => paper::cases(),
            ARRIVALS => arrivals::cases(),
            version_2::BY_HAND => version_2::cases(),
            _ => return,
        };
        family::list_cases(first, cases.into_iter().map(words));
    });
}

/// How often each answer comes, from 0, a run, to 6, and 16.
fn answers(records: &[Record]) -> [usize; 8] {
    let mut counts = [0; 8];
    for record in records {
        for &v in &record.valuations {
            let number = match sweep(&record.file, v) {
                Ok(Some(_)) => 0,
                Ok(None) => 1,
                Err(refusal) => usize::from(refusal.number).min(7),
            };
            counts[number] += 1;
        }
    }
    counts
}

/// A case in words: what it tries, and what it must give.
fn words(case: paper::Case) -> (String, String) {
    let result = match case.result {
        Reply::Run(_) => "a run".to_string(),
        Reply::Void => "void".to_string(),
        Reply::Refused(number, place) => format!("refused {number} place {place}"),
    };
    (case.name.to_string(), result)
}
