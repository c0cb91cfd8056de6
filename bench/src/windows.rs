// Measures one proved Windows against a proved Sweep at every valuation of the ranges, and Windows along growing routes.
// The counts of pieces are compared with the reference's.
use crate::cuts::{self, Family, LENGTHS};
use crate::sweep::sweep;
use crate::timing::{mean, round, slopes, time};
use reference::random::Random;
use reference::sheet::Sheet;
use reference::valuations::{all, some, Valuation};
use reference::windows::{cut, Limits};
use std::hint::black_box;

mod proved {
    extern "C" {
        pub fn windows_count(file: *const u8, length: usize) -> i64;
    }
}

// The number of pieces that Windows lists, or minus the refusal's number.
pub fn windows(file: &[u8]) -> i64 {
    let file = black_box(file);
    // The function reads the slice, and asks nothing of its contents.
    unsafe { proved::windows_count(file.as_ptr(), file.len()) }
}

// Times in microseconds on each sheet of a family, and the pieces of each: one Windows, and one Sweep, which is the
// mean over a sample of the valuations.
struct Times {
    windows: Vec<f64>,
    sweep: Vec<f64>,
    pieces: Vec<i64>,
}

impl Times {
    // How often one Windows goes into a Sweep at each of so many valuations.
    fn ratio(&self, valuations: usize) -> f64 {
        mean(&self.sweep) * valuations as f64 / mean(&self.windows)
    }
}

// The longest route on which the reference is asked in a quick run: it puts in every valuation at every test.
const QUICK: usize = 4;

// The reference's number of pieces, or minus the refusal's number.
fn reference_count(sheet: &Sheet) -> i64 {
    match cut(sheet, Limits::PAPER) {
        Ok(found) => found.zones.len() as i64,
        Err(refusal) => -(refusal.number as i64),
    }
}

// The number of pieces, which ends the run if it is not the reference's or if there are ten or more.
fn pieces(f: &Family, sheet: &Sheet, file: &[u8], quick: bool) -> i64 {
    let found = windows(file);
    let right = if quick && f.moves > QUICK { found } else { reference_count(sheet) };
    if found != right || !(1..10).contains(&found) {
        println!("'{}' with {} moves: proved {found}, reference {right}, on {file:?}", f.name, f.moves);
        std::process::exit(1);
    }
    found
}

// How many valuations are taken for those of a Sweep at each.
fn sample(quick: bool) -> usize {
    if quick { 1024 } else { 4096 }
}

// One pass through a sample of valuations.
fn sweeps(file: &[u8], sample: &[Valuation]) -> i64 {
    sample.iter().map(|&v| sweep(file, v)).sum()
}

// The least time of each sheet over some passes.
fn measure(f: &Family, quick: bool) -> Times {
    let (passes, span) = if quick { (1, 50.0) } else { (5, 2000.0) };
    let sample = sample(quick);
    let files = f.files();
    let random = &mut Random::new(7);
    let mut times = Times { windows: Vec::new(), sweep: Vec::new(), pieces: Vec::new() };
    for (sheet, file) in f.sheets.iter().zip(&files) {
        times.pieces.push(pieces(f, sheet, file, quick));
        let valuations = some(random, &sheet.parameters, sample);
        let mut one = time(1, || windows(file));
        let mut many = time(1, || sweeps(file, &valuations));
        for _ in 0..passes {
            round(&mut one, span, || windows(file));
            round(&mut many, span, || sweeps(file, &valuations));
        }
        times.windows.push(one);
        times.sweep.push(many / sample as f64);
    }
    times
}

// The least and the most pieces.
pub fn range(pieces: &[i64]) -> String {
    let (low, high) = (pieces.iter().min().unwrap_or(&0), pieces.iter().max().unwrap_or(&0));
    if low == high { format!("{low}") } else { format!("{low}-{high}") }
}

fn print(f: &Family, t: &Times, valuations: usize) {
    println!(
        "{:<34} {:>6} {:>5} {:>6} {:>13.1} {:>10.3} {:>14.0} {:>10.1}",
        f.name,
        f.sheets.len(),
        f.moves,
        range(&t.pieces),
        mean(&t.windows),
        mean(&t.sweep),
        mean(&t.sweep) * valuations as f64,
        t.ratio(valuations)
    );
}

pub fn run(quick: bool) {
    let sample = sample(quick);
    let families = cuts::all(if quick { 1 } else { 4 });
    let valuations = all(&families[0].sheets[0].parameters).len();
    println!("Windows. Times in microseconds of a whole call, which reads the file. 'all Sweeps' is a Sweep at each of the");
    println!("{valuations} valuations: the mean over a sample of {sample} of them, times that. The ratio is that over one Windows.");
    let head = format!("{:>13} {:>10} {:>14} {:>10}", "one Windows", "one Sweep", "all Sweeps", "ratio");
    println!("{:<34} {:>6} {:>5} {:>6} {head}", "family", "sheets", "moves", "pieces");
    let mut times = Vec::new();
    for f in &families {
        let t = measure(f, quick);
        print(f, &t, valuations);
        times.push(t);
    }
    println!("\nMicroseconds of Windows with one move, and for each further move, at lengths {LENGTHS:?}:");
    for (group, times) in families.chunks(LENGTHS.len()).zip(times.chunks(LENGTHS.len())) {
        if group.iter().all(|f| f.growing) {
            let means: Vec<f64> = times.iter().map(|t| mean(&t.windows)).collect();
            println!("{:<34} {:.1} {}", group[0].name, means[0], slopes(&means, &LENGTHS, 1));
        }
    }
    let least = times.iter().map(|t| t.ratio(valuations)).fold(f64::INFINITY, f64::min);
    println!("\n{valuations} valuations, fewer than ten pieces: a Sweep at each takes at least {least:.1} times as long as one Windows.");
}
