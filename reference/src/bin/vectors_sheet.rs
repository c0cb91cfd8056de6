//! Writes the stored test vectors of the sheet file and their results into the folder of the
//! program that runs them, or, with `--check`, compares what is stored there with a fresh
//! computation.
//!
//! Use: `vectors_sheet [--check] FOLDER`, or `vectors_sheet --list` to see which lines of the results
//! belong to which family.

use reference::family;
use reference::sheet::Refusal;
use reference::tool::{run, Stored};
use reference::vectors::{families, limits, line, stored, version_2, LIMITS, VERSION_2};
use std::process::ExitCode;

fn main() -> ExitCode {
    run("vectors_sheet", list, vectors)
}

/// The files and their results.
fn vectors() -> Stored {
    let data = "data/sheets.bin";
    Stored::vectors(data, &families(), |file| stored(file), |file| line(file))
}

/// Prints each family, and what each case at a limit tries and must give.
fn list() {
    family::list(
        &families(),
        |file| stored(file),
        |family, first| {
            let cases = match family.name {
                LIMITS => limits::cases(),
                VERSION_2 => version_2::cases(),
                _ => return,
            };
            family::list_cases(first, cases.into_iter().map(words));
        },
    );
}

/// A case in words: what it tries, and what it must give.
fn words(case: limits::Case) -> (String, String) {
    let result = match case.result.refusal() {
        None => "taken".to_string(),
        Some(Refusal { number, place }) => format!("refused {number} place {place}"),
    };
    (case.name.to_string(), result)
}
