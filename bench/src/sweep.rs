// Measures proved Sweep against the reference's on the same files, and compares every answer.
use crate::sheets::{self, Family, Input, LENGTHS, SMALLEST};
use crate::timing::{mean, round, slopes, time};
use reference::valuations::Valuation;
use std::hint::black_box;

mod proved {
    extern "C" {
        pub fn sweep_sheet(sheet: *const u8, length: usize, p1: i64, p2: i64, p3: i64, p4: i64) -> i64;
    }
}

// How many times the reference's time Sweep may take: on the worst of the judged sheets; and the goals, for the judged
// families and for the smallest sheet.
const LIMIT: f64 = 10.0;
const LONGEST_GOAL: f64 = 2.0;
const SMALLEST_GOAL: f64 = 3.0;

// Times in microseconds of the two on each input of a family, and of the reference's reading alone.
struct Times {
    proved: Vec<f64>,
    reference: Vec<f64>,
    reading: Vec<f64>,
}

// 0 for a run, 1 for none, else the refusal's number.
pub fn sweep(file: &[u8], v: Valuation) -> i64 {
    let (file, [p, q, r, s]) = black_box((file, v));
    // The function reads the slice, and asks nothing of its contents.
    unsafe { proved::sweep_sheet(file.as_ptr(), file.len(), p, q, r, s) }
}

fn proved(x: &Input) -> i64 {
    sweep(&x.file, x.valuation)
}

// The reference's answer as a number, as the proved function gives it.
fn reference(x: &Input) -> i64 {
    let x = black_box(x);
    match black_box(reference::sweep::sweep(&x.file, x.valuation)) {
        Ok(Some(_)) => 0,
        Ok(None) => 1,
        Err(refusal) => refusal.number as i64,
    }
}

fn reading(x: &Input) -> i64 {
    black_box(reference::sheet::read(&black_box(x).file)).is_ok() as i64
}

// Ends the run if the two disagree, or if the answer is not the one that the family is about.
fn compare(f: &Family, x: &Input) {
    let (a, b) = (proved(x), reference(x));
    if a != b {
        println!("the sweeps disagree in '{}': proved {a}, reference {b}, at {:?} on {:?}", f.name, x.valuation, x.file);
        std::process::exit(1);
    }
    if f.answer.is_some_and(|wanted| a != wanted) {
        println!("a sheet of '{}' is answered by {a}, at {:?}: {:?}", f.name, x.valuation, x.file);
        std::process::exit(1);
    }
}

// The least time of each input over some passes through all families: rounds of one input lie apart,
// so that a busy moment of the machine does not meet all of them.
fn measure(families: &[Family], passes: usize, span: f64) -> Vec<Times> {
    let first = |f: &Family, call: fn(&Input) -> i64| f.inputs.iter().map(|x| time(1, || call(x))).collect();
    let mut all: Vec<Times> = Vec::new();
    for f in families {
        f.inputs.iter().for_each(|x| compare(f, x));
        all.push(Times { proved: first(f, proved), reference: first(f, reference), reading: first(f, reading) });
    }
    for _ in 0..passes {
        for (f, times) in families.iter().zip(&mut all) {
            for (k, x) in f.inputs.iter().enumerate() {
                round(&mut times.proved[k], span, || proved(x));
                round(&mut times.reference[k], span, || reference(x));
                round(&mut times.reading[k], span, || reading(x));
            }
        }
    }
    all
}

// The largest ratio of an input.
fn largest(t: &Times) -> f64 {
    t.proved.iter().zip(&t.reference).map(|(a, b)| a / b).fold(0.0, f64::max)
}

fn print(f: &Family, t: &Times) {
    println!(
        "{:<34} {:>6} {:>5} {:>11.2} {:>14.2} {:>8.2} {:>11.2} {:>12.2}",
        f.name,
        f.inputs.len(),
        f.moves,
        mean(&t.proved),
        mean(&t.reference),
        mean(&t.proved) / mean(&t.reference),
        largest(t),
        mean(&t.reading)
    );
}

fn judge(families: &[Family], all: &[Times]) {
    println!("\nMicroseconds for each further move, at lengths {LENGTHS:?}:");
    for (group, times) in families.chunks(LENGTHS.len()).zip(all.chunks(LENGTHS.len())) {
        if group.iter().any(|f| f.judged) {
            let slope = |pick: fn(&Times) -> f64| slopes(&times.iter().map(pick).collect::<Vec<f64>>(), &LENGTHS, 3);
            let (proved, reference) = (slope(|t| mean(&t.proved)), slope(|t| mean(&t.reference)));
            println!("{:<34} proved {proved}   reference {reference}", group[0].name);
        }
    }
    let judged = || families.iter().zip(all).filter(|(f, _)| f.judged).map(|(_, t)| t);
    let ratio = judged().map(|t| mean(&t.proved) / mean(&t.reference)).fold(0.0, f64::max);
    let most = judged().map(largest).fold(0.0, f64::max);
    let says = |yes: bool| if yes { "holds" } else { "DOES NOT HOLD" };
    println!("\n32 moves, 6 limits everywhere, a run: {ratio:.2} times the reference's time, {most:.2} on the worst sheet.");
    println!("'Under ten times the reference's time' (taken as: on the worst sheet) {}.", says(most < LIMIT));
    println!("'At most {LONGEST_GOAL} times with 32 moves and 6 limits everywhere' {}.", says(ratio <= LONGEST_GOAL));
    for (_, t) in families.iter().zip(all).filter(|(f, _)| f.name == SMALLEST) {
        let says = says(largest(t) <= SMALLEST_GOAL);
        println!("The smallest sheet: {:.2} times. 'At most {SMALLEST_GOAL} times on the smallest sheet' {says}.", largest(t));
    }
}

pub fn run(quick: bool) {
    let (n, passes, span) = if quick { (4, 3, 50.0) } else { (20, 20, 200.0) };
    println!("Sweep. Times in microseconds of a whole call, which reads the file; 'reading' is that part of the reference's call.");
    let head = format!("{:>11} {:>14} {:>8} {:>11} {:>12}", "proved mean", "reference mean", "ratio", "worst ratio", "reading mean");
    println!("{:<34} {:>6} {:>5} {head}", "family", "sheets", "moves");
    let families = sheets::all(n);
    let all = measure(&families, passes, span);
    families.iter().zip(&all).for_each(|(f, t)| print(f, t));
    judge(&families, &all);
}
