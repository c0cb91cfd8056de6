// Measures two builds of Windows and Sweep, an old and a new one, on the sheets of Windows' tables and of Sweep's. Their
// answers may differ, since a change of the rules is measured too.
use crate::library::Programs;
use crate::timing::{at_depth, mean, round, time};
use crate::windows::range;
use crate::{cuts, drawn, sheets};
use reference::random::Random;
use reference::valuations::{some, Valuation};

// One of the old build and one of the new.
type Two<T> = [T; 2];

// A sheet, what the two builds find on it, and the least times so far, in microseconds.
struct Sheet {
    file: Vec<u8>,
    // The number of pieces, or minus the refusal's number.
    pieces: Two<i64>,
    // Of one Windows, if both list a piece.
    windows: Option<Two<f64>>,
    // Valuations at which both find a run.
    runs: Vec<Valuation>,
    // Of a Sweep at each of these, if there are any.
    sweep: Option<Two<f64>>,
    // How many valuations were tried, and at how many of them the two Sweeps part.
    tried: usize,
    parted: usize,
}

struct Family {
    name: String,
    // The moves of the routes.
    moves: String,
    sheets: Vec<Sheet>,
}

// At how many valuations a sheet's Sweep is timed.
const TIMED: usize = 16;

fn sweeps(programs: &Programs, file: &[u8], valuations: &[Valuation]) -> i64 {
    valuations.iter().map(|&v| programs.sweep(file, v)).sum()
}

// The sheet with the answers of the two and their first times.
fn sheet(two: &Two<Programs>, file: Vec<u8>, valuations: &[Valuation]) -> Sheet {
    let pieces = two.each_ref().map(|programs| programs.windows(&file));
    let windows = two.each_ref().map(|programs| time(1, || programs.windows(&file)));
    let (mut runs, mut parted) = (Vec::new(), 0);
    for &v in valuations {
        let [old, new] = two.each_ref().map(|programs| programs.sweep(&file, v));
        parted += (old != new) as usize;
        if (old, new) == (0, 0) && runs.len() < TIMED {
            runs.push(v);
        }
    }
    let sweep = two.each_ref().map(|programs| time(1, || sweeps(programs, &file, &runs)));
    Sheet {
        file,
        pieces,
        windows: pieces.iter().all(|&count| count > 0).then_some(windows),
        sweep: (!runs.is_empty()).then_some(sweep),
        runs,
        tried: valuations.len(),
        parted,
    }
}

// The families of Windows' tables, where random valuations are tried, and those of Sweep's, with one for each sheet.
fn families(two: &Two<Programs>, quick: bool) -> Vec<Family> {
    let (n, few, tried) = if quick { (1, 1, 64) } else { (4, 2, 256) };
    let random = &mut Random::new(7);
    let mut all = Vec::new();
    for f in cuts::all(n) {
        let mut list = Vec::new();
        for (plan, file) in f.sheets.iter().zip(f.files()) {
            list.push(sheet(two, file, &some(random, &plan.parameters, tried)));
        }
        all.push(Family { name: f.name.to_string(), moves: f.moves.to_string(), sheets: list });
    }
    for f in drawn::all(few) {
        let moves = f.moves();
        let list = f.sheets.into_iter().map(|d| sheet(two, d.file, &some(random, &d.sheet.parameters, tried))).collect();
        all.push(Family { name: f.name, moves, sheets: list });
    }
    for f in sheets::all(n) {
        let list = f.inputs.into_iter().map(|x| sheet(two, x.file, &[x.valuation])).collect();
        all.push(Family { name: f.name.to_string(), moves: f.moves.to_string(), sheets: list });
    }
    all
}

// One more round of the two builds on a sheet, in that order and right after each other.
fn pass(two: &Two<Programs>, s: &mut Sheet, order: Two<usize>, span: f64) {
    for k in order {
        if let Some(least) = &mut s.windows {
            round(&mut least[k], span, || two[k].windows(&s.file));
        }
    }
    for k in order {
        if let Some(least) = &mut s.sweep {
            round(&mut least[k], span, || sweeps(&two[k], &s.file, &s.runs));
        }
    }
}

// The least times over some passes through all sheets: rounds of one sheet lie apart, and the build that comes first
// is the other one at each pass, at another depth of the stack.
fn measure(two: &Two<Programs>, families: &mut [Family], quick: bool) {
    let (passes, span) = if quick { (4, 50.0) } else { (60, 500.0) };
    for number in 0..passes {
        let order = if number % 2 == 0 { [0, 1] } else { [1, 0] };
        at_depth(number, &mut || {
            families.iter_mut().flat_map(|f| &mut f.sheets).for_each(|s| pass(two, s, order, span));
        });
    }
}

// The mean of each build's times, if there are any.
fn means(times: &[Two<f64>]) -> Option<Two<f64>> {
    let mean_of = |k: usize| mean(&times.iter().map(|t| t[k]).collect::<Vec<f64>>());
    (!times.is_empty()).then(|| [0, 1].map(mean_of))
}

impl Family {
    // The mean times of one Windows on the sheets where it is timed.
    fn windows(&self) -> Option<Two<f64>> {
        means(&self.sheets.iter().filter_map(|s| s.windows).collect::<Vec<Two<f64>>>())
    }

    // The mean times of one Sweep.
    fn sweep(&self) -> Option<Two<f64>> {
        let one = |s: &Sheet| s.sweep.map(|times| times.map(|t| t / s.runs.len() as f64));
        means(&self.sheets.iter().filter_map(one).collect::<Vec<Two<f64>>>())
    }

    // The counts of pieces of each sheet where Windows is timed.
    fn pieces(&self) -> Vec<Two<i64>> {
        self.sheets.iter().filter(|s| s.windows.is_some()).map(|s| s.pieces).collect()
    }

    // Those that differ.
    fn changed(&self) -> Vec<Two<i64>> {
        self.pieces().into_iter().filter(|[old, new]| old != new).collect()
    }
}

fn ratio([old, new]: Two<f64>) -> f64 {
    new / old
}

fn cells(times: Option<Two<f64>>) -> String {
    match times {
        Some([old, new]) => format!("{old:>9.1} {new:>9.1} {:>6.2}", ratio([old, new])),
        None => format!("{:>9} {:>9} {:>6}", "-", "-", "-"),
    }
}

// One row, unless nothing is timed in the family.
fn print(f: &Family) {
    if f.windows().is_none() && f.sweep().is_none() {
        return;
    }
    let counts = f.pieces();
    let pieces = |k: usize| match counts.len() {
        0 => "-".to_string(),
        _ => range(&counts.iter().map(|pair| pair[k]).collect::<Vec<i64>>()),
    };
    println!(
        "{:<34} {:>5} {:>7} {:>7} {:>7} {} {}",
        f.name,
        f.moves,
        format!("{}/{}", counts.len(), f.sheets.len()),
        pieces(0),
        pieces(1),
        cells(f.windows()),
        cells(f.sweep())
    );
}

// The least, the middle and the largest of some ratios.
fn print_ratios(what: &str, times: impl Iterator<Item = Two<f64>>) {
    let mut ratios: Vec<f64> = times.map(ratio).collect();
    ratios.sort_by(f64::total_cmp);
    let n = ratios.len();
    if n > 0 {
        let (least, most) = (ratios[0], ratios[n - 1]);
        let median = (ratios[(n - 1) / 2] + ratios[n / 2]) / 2.0;
        println!("{what:<42} least {least:.2}, median {median:.2}, largest {most:.2}, of {n} rows");
    }
}

// What was left out.
fn print_left_out(all: &[&Sheet]) {
    let count = |wanted: fn(&Sheet) -> bool| all.iter().filter(|s| wanted(s)).count();
    let old = count(|s| s.pieces[0] <= 0 && s.pieces[1] > 0);
    let new = count(|s| s.pieces[0] > 0 && s.pieces[1] <= 0);
    let both = count(|s| s.pieces[0] <= 0 && s.pieces[1] <= 0);
    let sweep = count(|s| s.sweep.is_none());
    println!("\nLeft out, of {} sheets:", all.len());
    println!("for Windows, refused or void: {old} in the old one alone, {new} in the new one alone, {both} in both;");
    println!("for Sweep: {sweep}, where no valuation was tried at which both find a run.");
}

// Where the answers differ.
fn print_answers(families: &[Family], all: &[&Sheet]) {
    let sum = |number: fn(&Sheet) -> usize| all.iter().map(|s| number(s)).sum::<usize>();
    println!("\nThe Sweeps differ at {} of {} valuations tried.", sum(|s| s.parted), sum(|s| s.tried));
    let listed = sum(|s| s.windows.is_some() as usize);
    let changed: usize = families.iter().map(|f| f.changed().len()).sum();
    println!("The counts of pieces differ on {changed} of the {listed} sheets where Windows is timed.");
    for f in families.iter().filter(|f| !f.changed().is_empty()) {
        let words: Vec<String> = f.changed().iter().map(|[old, new]| format!("{old} and {new}")).collect();
        println!("    {}, {} moves: {}", f.name, f.moves, words.join("; "));
    }
}

pub fn run(folders: Two<&str>, quick: bool) {
    let two = folders.map(Programs::load);
    let mut families = families(&two, quick);
    measure(&two, &mut families, quick);
    println!("Times in microseconds of a whole call, which reads the file. A ratio is new to old. 'listed' says on");
    println!("how many of the sheets both list pieces: Windows is timed there, and Sweep where both find a run.");
    println!("{:<34} {:>5} {:>7} {:>15} {:>26} {:>26}", "", "", "", "pieces", "one Windows", "one Sweep");
    let head = format!("{:>9} {:>9} {:>6}", "old", "new", "ratio");
    println!("{:<34} {:>5} {:>7} {:>7} {:>7} {head} {head}", "family", "moves", "listed", "old", "new");
    families.iter().for_each(print);
    let all: Vec<&Sheet> = families.iter().flat_map(|f| &f.sheets).collect();
    print_left_out(&all);
    print_answers(&families, &all);
    println!("\nNew to old:");
    print_ratios("Windows", families.iter().filter_map(Family::windows));
    let same = families.iter().filter(|f| f.changed().is_empty());
    print_ratios("Windows, where no count of pieces differs", same.filter_map(Family::windows));
    print_ratios("Sweep", families.iter().filter_map(Family::sweep));
}
