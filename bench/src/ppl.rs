// Measures Windows against the Parma Polyhedra Library (bench/peers/ppl.cpp), which carries one polyhedron along the route
// of the same sheet. Its projection is compared with Sweep at some valuations of each sheet.
use crate::asked;
use crate::drawn::{self, Drawn, Family};
use crate::library::function;
use crate::sweep::sweep;
use crate::table::Table;
use crate::timing::{at_depth, median, round, time, worst};
use crate::windows::{range, windows};
use reference::random::Random;
use reference::sheet::read;
use reference::valuations::{corners, some, Valuation};
use std::ffi::{c_int, c_void};
use std::hint::black_box;

// How many times Windows' time the library is to take: in the middle, and on every sheet that is not refused.
const MIDDLE: f64 = 10.0;
const LEAST: f64 = 2.0;

type Route = unsafe extern "C" fn(*const u8) -> c_int;
type Holds = unsafe extern "C" fn(*const u8, *const i64, usize, *mut u8);

// The functions of the peer.
struct Peer {
    route: Route,
    plain: Route,
    holds: Holds,
}

impl Peer {
    // Those of a shared library.
    fn load(path: &str) -> Peer {
        // The types are those of bench/peers/ppl.cpp.
        unsafe {
            Peer {
                route: std::mem::transmute::<*mut c_void, Route>(function(path, "ppl_route")),
                plain: std::mem::transmute::<*mut c_void, Route>(function(path, "ppl_plain")),
                holds: std::mem::transmute::<*mut c_void, Holds>(function(path, "ppl_holds")),
            }
        }
    }

    // 1 if the projection holds any numbers, else 0.
    fn route(&self, file: &[u8]) -> i64 {
        // The function reads the file, which is a readable sheet.
        unsafe { (self.route)(black_box(file).as_ptr()) as i64 }
    }

    // The same, as a plain program of the library works it out.
    fn plain(&self, file: &[u8]) -> i64 {
        // As above.
        unsafe { (self.plain)(black_box(file).as_ptr()) as i64 }
    }

    // Whether the projection holds each of the valuations.
    fn holds(&self, file: &[u8], valuations: &[Valuation]) -> Vec<bool> {
        let mut answers = vec![0; valuations.len()];
        // As above; it reads four numbers of each valuation and writes one answer for each.
        unsafe { (self.holds)(file.as_ptr(), valuations.as_ptr().cast(), valuations.len(), answers.as_mut_ptr()) };
        answers.iter().map(|&answer| answer == 1).collect()
    }
}

// Least times in microseconds on each sheet of a family.
struct Times {
    windows: Vec<f64>,
    ppl: Vec<f64>,
}

impl Times {
    // How many times Windows' time the library takes on each sheet.
    fn ratios(&self) -> Vec<f64> {
        self.ppl.iter().zip(&self.windows).map(|(ppl, windows)| ppl / windows).collect()
    }
}

// At how many valuations the library agrees with Sweep: some, and the corners of the ranges. Ends the run where they part,
// where Windows lists a piece and the library finds nothing, or where its pieces are not those of another cutting.
fn compare(peer: &Peer, f: &Family, drawn: &Drawn, random: &mut Random) -> usize {
    let mut valuations = corners(&drawn.sheet.parameters);
    valuations.extend(some(random, &drawn.sheet.parameters, 64));
    let runs = valuations.iter().map(|&v| sweep(&drawn.file, v) == 0);
    let parted = runs.zip(peer.holds(&drawn.file, &valuations)).filter(|(a, b)| a != b).count();
    let recounted = if drawn.pieces < 0 { drawn.pieces } else { asked::pieces(&drawn.sheet) as i64 };
    if parted > 0 || recounted != drawn.pieces || (drawn.pieces > 0 && peer.route(&drawn.file) == 0) {
        let (name, all, pieces, file) = (&f.name, valuations.len(), drawn.pieces, &drawn.file);
        println!("'{name}': PPL and Sweep part at {parted} of {all} valuations, pieces {pieces} and {recounted}, on {file:?}");
        std::process::exit(1);
    }
    valuations.len()
}

// One more round of the two on each sheet of a family, right after each other.
fn pass(peer: &Peer, f: &Family, times: &mut Times, span: f64) {
    for (k, drawn) in f.sheets.iter().enumerate() {
        round(&mut times.windows[k], span, || windows(&drawn.file));
        round(&mut times.ppl[k], span, || peer.route(&drawn.file));
    }
}

// The least times over some passes through all sheets: rounds of one sheet lie apart, so that a busy moment of the machine
// does not meet all of them.
fn measure(peer: &Peer, families: &[Family], passes: usize, span: f64) -> Vec<Times> {
    let first = |f: &Family, call: &dyn Fn(&[u8]) -> i64| f.sheets.iter().map(|d| time(1, || call(&d.file))).collect();
    let mut all: Vec<Times> = Vec::new();
    for f in families {
        all.push(Times { windows: first(f, &windows), ppl: first(f, &|file| peer.route(file)) });
    }
    for number in 0..passes {
        at_depth(number, &mut || families.iter().zip(&mut all).for_each(|(f, times)| pass(peer, f, times, span)));
    }
    all
}

// The sheet of a file in sheets/.
fn stored(name: &str) -> Drawn {
    let path = format!("sheets/{name}.sheet");
    let file = std::fs::read(&path).unwrap_or_else(|_| panic!("{path} is there"));
    drawn::answered(read(&file).unwrap_or_else(|_| panic!("{path} is a sheet")))
}

// All families that are judged, with up to 4 n sheets each where they are random, and those that are refused.
fn families(n: usize) -> (Vec<Family>, Vec<Family>) {
    let mut listed = drawn::all(n);
    for (name, file) in [("the week", "week"), ("the tent", "tent")] {
        listed.push(Family { name: name.to_string(), sheets: vec![stored(file)] });
    }
    let refused = [7, 8].map(|number| Family { name: format!("refused by {number}"), sheets: drawn::refused(number, 2 * n) });
    (listed, refused.into())
}

// The least of some numbers.
fn least(numbers: &[f64]) -> f64 {
    numbers.iter().copied().fold(f64::INFINITY, f64::min)
}

// One row of the table.
fn row(f: &Family, t: &Times) -> Vec<String> {
    let pieces: Vec<i64> = f.sheets.iter().map(|d| d.pieces.max(0)).collect();
    let mut cells = vec![f.name.clone(), f.sheets.len().to_string(), f.moves(), range(&pieces)];
    cells.extend([median(&t.windows), worst(&t.windows), median(&t.ppl), worst(&t.ppl)].map(|time| format!("{time:.0}")));
    cells.extend([median(&t.ratios()), least(&t.ratios())].map(|ratio| format!("{ratio:.2}")));
    cells
}

// The sheets with the least ratios.
fn print_least(families: &[Family], all: &[Times]) {
    let mut rows = Vec::new();
    for (f, t) in families.iter().zip(all) {
        for (k, drawn) in f.sheets.iter().enumerate() {
            rows.push((t.ratios()[k], f, drawn, t.windows[k], t.ppl[k]));
        }
    }
    rows.sort_by(|a, b| a.0.total_cmp(&b.0));
    println!("\nThe five sheets with the least ratios:");
    for (ratio, f, drawn, windows, ppl) in rows.iter().take(5) {
        let sheet = &drawn.sheet;
        let (moves, clocks, pieces) = (sheet.route.len(), sheet.clocks, drawn.pieces);
        println!(
            "{:<28} moves {moves:>2}, clocks {clocks}, pieces {pieces:>2}: Windows {windows:.1}, PPL {ppl:.1}, ratio {ratio:.2}",
            f.name
        );
    }
}

// The ratios by the clocks of the sheets.
fn print_clocks(families: &[Family], all: &[Times]) {
    println!("\nThe ratios by clocks:");
    for clocks in 1..=4 {
        let mut ratios = Vec::new();
        for (f, t) in families.iter().zip(all) {
            let with = f.sheets.iter().zip(t.ratios()).filter(|(drawn, _)| drawn.sheet.clocks == clocks);
            ratios.extend(with.map(|(_, ratio)| ratio));
        }
        if !ratios.is_empty() {
            println!("{clocks}: median {:.2}, least {:.2}, of {} sheets", median(&ratios), least(&ratios), ratios.len());
        }
    }
}

// How much longer a plain program of the library takes, and what that makes of the ratios. Ends the run where its answer differs.
fn print_plain(peer: &Peer, families: &[Family], all: &[Times], passes: usize) {
    let (mut longer, mut ratios) = (Vec::new(), Vec::new());
    for (f, t) in families.iter().zip(all) {
        for (k, drawn) in f.sheets.iter().enumerate() {
            if peer.plain(&drawn.file) != peer.route(&drawn.file) {
                println!("the plain program of PPL answers otherwise on {:?}", drawn.file);
                std::process::exit(1);
            }
            let plain = (0..passes).map(|_| time(1, || peer.plain(&drawn.file))).fold(f64::INFINITY, f64::min);
            longer.push(plain / t.ppl[k]);
            ratios.push(plain / t.windows[k]);
        }
    }
    println!(
        "\nA plain program of PPL (closed or not, time elapse, affine images) takes {:.2} times as long in the median, {:.2} at least; \
         that is {:.2} times Windows' time in the median, {:.2} at least.",
        median(&longer),
        least(&longer),
        median(&ratios),
        least(&ratios)
    );
}

// Whether a number reaches a goal, in words.
fn verdict(number: f64, goal: f64) -> &'static str {
    if number >= goal { "holds" } else { "DOES NOT HOLD" }
}

// The overall median and least ratios next to the goals.
fn judge(families: &[Family], all: &[Times]) {
    let ratios: Vec<f64> = all.iter().flat_map(Times::ratios).collect();
    let (middle, low) = (median(&ratios), least(&ratios));
    print_clocks(families, all);
    print_least(families, all);
    println!(
        "\n{} sheets that are not refused: PPL takes {middle:.2} times Windows' time in the median, {low:.2} at least.",
        ratios.len()
    );
    let (in_the_middle, everywhere) = (verdict(middle, MIDDLE), verdict(low, LEAST));
    println!("'At least {MIDDLE} times in the middle' {in_the_middle}; 'at least {LEAST} times on every sheet' {everywhere}.");
}

// The table, or one line where the library is not there.
pub fn run(path: Option<&str>, quick: bool) {
    let Some(path) = path else {
        println!("Windows is not measured against PPL: g++ or libppl-dev is not there.");
        return;
    };
    let peer = Peer::load(path);
    let (n, passes, span) = if quick { (1, 2, 50.0) } else { (5, 12, 200.0) };
    let (listed, refused) = families(n);
    let random = &mut Random::new(9);
    let both = || listed.iter().chain(&refused);
    let valuations: usize = both().map(|f| f.sheets.iter().map(|d| compare(&peer, f, d, random)).sum::<usize>()).sum();
    println!("Windows against PPL. Times in microseconds of a whole call, which reads the file. A ratio is PPL's time over Windows'.");
    let times = ["Windows, median", "worst", "PPL, median", "worst"];
    let mut table = Table::new(&[&["family", "sheets", "moves", "pieces"][..], &times, &["ratio, median", "least"]].concat());
    let times = measure(&peer, &listed, passes, span);
    listed.iter().zip(&times).for_each(|(f, t)| table.push(row(f, t)));
    let outside = measure(&peer, &refused, passes, span);
    refused.iter().zip(&outside).for_each(|(f, t)| table.push(row(f, t)));
    table.print();
    judge(&listed, &times);
    print_plain(&peer, &listed, &times, passes.min(5));
    println!("PPL's projection and Sweep agree at {valuations} valuations of these sheets.");
}
