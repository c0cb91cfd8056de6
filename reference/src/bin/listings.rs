//! Writes the stored listings and their files into a folder, or, with `--check`, compares what is stored
//! there with a fresh computation.
//!
//! Use: `listings [--check] FOLDER`, or `listings --list` to see the names of the cases.

use reference::listings::{cases, text};
use reference::tool::{run, Stored};
use reference::vectors::stored;
use std::process::ExitCode;

fn main() -> ExitCode {
    run("listings", list, listings)
}

/// The files and their listings.
fn listings() -> Stored {
    let cases = cases();
    Stored {
        data: "sheets.bin",
        records: cases.iter().map(|case| stored(&case.file)).collect(),
        results: "listings.txt",
        text: text(&cases),
    }
}

/// Prints the names of the cases.
fn list() {
    for (n, case) in (1..).zip(cases()) {
        println!("case {n}: {}, {} bytes", case.name, case.file.len());
    }
}
