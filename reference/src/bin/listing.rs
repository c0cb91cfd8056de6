//! Reads a sheet from standard input and prints what Windows finds, as the program of paper 01 does.

use reference::listing::listing;
use std::io::{Read, Write};
use std::process::ExitCode;

fn main() -> ExitCode {
    let mut file = Vec::new();
    let read = std::io::stdin().read_to_end(&mut file);
    match read.and_then(|_| std::io::stdout().write_all(listing(&file).as_bytes())) {
        Ok(()) => ExitCode::SUCCESS,
        Err(why) => {
            eprintln!("listing: {why}");
            ExitCode::FAILURE
        }
    }
}
