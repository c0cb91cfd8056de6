// Measures the proved search against a plain scan on the same systems, and compares every answer.
use crate::families::{self, Family, Question};
use crate::searches;
use crate::system::{Input, System};
use crate::timing::{mean, round, time, worst};
use std::hint::black_box;

// Times in microseconds of the two searches on each system of a family.
struct Times {
    proved: Vec<f64>,
    scan: Vec<f64>,
}

// The answer as a number: whether there is a valuation, or how many there are.
fn proved(question: &Question, input: &Input) -> i64 {
    match question {
        Question::First => searches::first(black_box(input)),
        Question::Count => searches::count(black_box(input)),
        Question::Some(guess) => searches::some(black_box(input), *guess),
    }
}

fn scan(question: &Question, s: &System) -> i64 {
    match question {
        Question::First | Question::Some(_) => searches::scan_first(black_box(s)).is_some() as i64,
        Question::Count => searches::scan_count(black_box(s)),
    }
}

// Ends the run if the two searches disagree.
fn compare(f: &Family, s: &System) {
    let input = s.input();
    let (a, b) = (proved(&f.question, &input), scan(&f.question, s));
    if a != b || searches::whole_first(&input) != searches::scan_first(s) {
        println!("the searches disagree in '{}': proved {a}, scan {b}, on {:?} {:?}", f.name, s.ranges, s.list);
        std::process::exit(1);
    }
    if f.judged && a != 0 {
        println!("a system of '{}' has a solution: {:?} {:?}", f.name, s.ranges, s.list);
        std::process::exit(1);
    }
}

// The least time of each system over some passes through the family: rounds of one system lie apart,
// so that a busy moment of the machine does not meet all of them.
fn measure(f: &Family, passes: usize, span: f64) -> Times {
    f.systems.iter().for_each(|s| compare(f, s));
    let inputs: Vec<Input> = f.systems.iter().map(System::input).collect();
    let mut times = Times {
        proved: inputs.iter().map(|input| time(1, || proved(&f.question, input))).collect(),
        scan: f.systems.iter().map(|s| time(1, || scan(&f.question, s))).collect(),
    };
    for _ in 0..passes {
        for (least, input) in times.proved.iter_mut().zip(&inputs) {
            round(least, span, || proved(&f.question, input));
        }
        for (least, s) in times.scan.iter_mut().zip(&f.systems) {
            round(least, span, || scan(&f.question, s));
        }
    }
    times
}

// The least and the most inequalities of a family.
fn inequalities(systems: &[System]) -> String {
    let sizes = || systems.iter().map(|s| s.list.len());
    format!("{}-{}", sizes().min().unwrap_or(0), sizes().max().unwrap_or(0))
}

fn print(f: &Family, t: &Times) {
    let valuations = f.systems.iter().map(System::size).max().unwrap_or(0);
    println!(
        "{:<34} {:>7} {:>6} {:>10} {:>11.2} {:>11.2} {:>8.1} {:>10.2}",
        f.name,
        f.systems.len(),
        inequalities(&f.systems),
        valuations,
        mean(&t.proved),
        mean(&t.scan),
        mean(&t.scan) / mean(&t.proved),
        worst(&t.proved)
    );
}

// The verdict on systems without a solution that are not contrived.
fn judge(times: &mut [f64]) {
    times.sort_by(f64::total_cmp);
    let at = |part: f64| times[((times.len() - 1) as f64 * part) as usize];
    let (median, high, most) = (at(0.5), at(0.99), at(1.0));
    let says = if most < 500.0 { "holds" } else { "DOES NOT HOLD" };
    println!("\nNo solution, not contrived: median {median:.1} us, 99 of 100 within {high:.1} us, worst {most:.1} us.");
    println!("'Well under a millisecond in all but contrived cases' (taken as: worst below 500 us) {says}.");
}

pub fn run(quick: bool) {
    let (n, passes, span) = if quick { (12, 3, 50.0) } else { (200, 10, 200.0) };
    println!("The search. Times in microseconds.");
    let counts = format!("{:>7} {:>6} {:>10}", "systems", "ineqs", "valuations");
    println!("{:<34} {counts} {:>11} {:>11} {:>8} {:>10}", "family", "proved mean", "scan mean", "ratio", "worst");
    let mut judged = Vec::new();
    for f in families::all(n) {
        let times = measure(&f, passes, span);
        print(&f, &times);
        if f.judged {
            judged.extend(&times.proved);
        }
    }
    judge(&mut judged);
}
