//! Throws random, damaged and good sheets with any four numbers at Sweep's C function and compares
//! each answer with the reference. The bytes lie at either end of pages that can be read only, between
//! pages that cannot be used, so that a read of one byte too many, or a write, ends the program.
//!
//! Use: `harness [--count N] [--seconds S] [--first N] [--cases FILE]`. It stops after N cases or S
//! seconds, whichever comes first. Case k is the same at every run; `--first N` starts at case N. With
//! `--cases` it calls nothing, and writes the cases and their answers to a file for the C program
//! beside it: length (u32), bytes, four numbers and the answer (i64), all little-endian.

mod cases;
mod faults;
mod pages;

use cases::Case;
use pages::{Pages, Side};
use reference::random::Random;
use reference::sweep::sweep;
use std::collections::BTreeMap;
use std::io::Write;
use std::process::ExitCode;
use std::time::{Duration, Instant};

extern "C" {
    /// See include/sweep.h.
    fn sweep_sheet(sheet: *const u8, length: usize, p1: i64, p2: i64, p3: i64, p4: i64) -> i64;
}

/// A run, void, and the refusals that Sweep can give.
const ANSWERS: [i64; 8] = [0, 1, 2, 3, 4, 5, 6, 16];

/// What the command line asks for.
struct Options {
    count: u64,
    seconds: u64,
    first: u64,
    cases: Option<String>,
}

fn main() -> ExitCode {
    let done = options().and_then(|options| match &options.cases {
        Some(path) => write_cases(path, &options),
        None => compare(&options),
    });
    match done {
        Ok(()) => ExitCode::SUCCESS,
        Err(message) => {
            eprintln!("harness: {message}");
            ExitCode::FAILURE
        }
    }
}

/// The options of the command line.
fn options() -> Result<Options, String> {
    let mut options = Options {
        count: 1_000_000,
        seconds: 600,
        first: 0,
        cases: None,
    };
    let mut words = std::env::args().skip(1);
    while let Some(word) = words.next() {
        let value = words.next().ok_or(format!("{word} needs a value"))?;
        match word.as_str() {
            "--count" => options.count = number(&value)?,
            "--seconds" => options.seconds = number(&value)?,
            "--first" => options.first = number(&value)?,
            "--cases" => options.cases = Some(value),
            _ => return Err(format!("{word} is no option")),
        }
    }
    Ok(options)
}

/// A number of the command line.
fn number(word: &str) -> Result<u64, String> {
    word.parse().map_err(|_| format!("{word} is no number"))
}

/// Case k.
fn case(k: u64) -> Case {
    let random = &mut Random::new(k.wrapping_mul(0x5851_f42d_4c95_7f2d));
    if k.is_multiple_of(16) {
        cases::planned_case(random)
    } else {
        cases::case(random)
    }
}

/// What the reference answers: 0 a run, 1 void, else the refusal's number.
fn expected(case: &Case) -> i64 {
    match sweep(&case.file, case.numbers) {
        Ok(Some(_)) => 0,
        Ok(None) => 1,
        Err(refusal) => i64::from(refusal.number),
    }
}

/// What the C function answers, with the bytes at that side of the pages.
fn answered(pages: &mut Pages, case: &Case, side: Side) -> i64 {
    let sheet = pages.put(&case.file, side);
    let [p1, p2, p3, p4] = case.numbers;
    // SAFETY: that many bytes can be read there.
    unsafe { sweep_sheet(sheet, case.file.len(), p1, p2, p3, p4) }
}

/// Compares all the cases. The error names the first difference, or an answer that no case had.
fn compare(options: &Options) -> Result<(), String> {
    let start = Instant::now();
    let limit = Duration::from_secs(options.seconds);
    let mut pages = Pages::new(cases::MOST);
    let mut counts: BTreeMap<i64, u64> = ANSWERS.map(|answer| (answer, 0)).into();
    let mut done = 0;
    faults::watch();
    while done < options.count && start.elapsed() < limit {
        let k = options.first + done;
        let case = case(k);
        let right = expected(&case);
        faults::announce(k);
        for side in [Side::Start, Side::End] {
            let got = answered(&mut pages, &case, side);
            if got != right {
                return Err(difference(k, &case, side, got, right));
            }
        }
        *counts.entry(right).or_default() += 1;
        done += 1;
    }
    let seconds = start.elapsed().as_secs_f64();
    println!("harness: {done} cases, each called twice, agree ({seconds:.1} s)");
    println!("harness: answers: {counts:?}");
    match counts.iter().find(|&(_, &n)| n == 0) {
        Some((answer, _)) if done >= 10_000 => Err(format!("no case has the answer {answer}")),
        _ => Ok(()),
    }
}

/// The message of a difference.
fn difference(k: u64, case: &Case, side: Side, got: i64, right: i64) -> String {
    let Case { file, numbers } = case;
    let hex: String = file.iter().map(|x| format!("{x:02x}")).collect();
    format!("case {k} at the {side:?}: {got} instead of {right}, {numbers:?}, bytes {hex}")
}

/// Writes the cases and their answers to a file.
fn write_cases(path: &str, options: &Options) -> Result<(), String> {
    let mut bytes = Vec::new();
    for k in options.first..options.first + options.count {
        let case = case(k);
        bytes.extend((case.file.len() as u32).to_le_bytes());
        bytes.extend(&case.file);
        for x in case.numbers {
            bytes.extend(x.to_le_bytes());
        }
        bytes.extend(expected(&case).to_le_bytes());
    }
    std::fs::File::create(path)
        .and_then(|mut file| file.write_all(&bytes))
        .map_err(|why| format!("{path}: {why}"))
}
