// Measures two builds of the satisfiability search, an old and a new one, on the same systems. An old one may have three
// parameters. The answers have to be equal.
use crate::asked::{self, Asked};
use crate::families::{Question, FOUR, THREE};
use crate::library::{Ask, Search};
use crate::system::{Input, System, Valuation};
use crate::table::Table;
use crate::timing::{at_depth, mean, median, round, time};
use crate::windows::windows;
use crate::{cuts, drawn};
use reference::sheet::Sheet;
use reference::writer::file;

// One of the old build and one of the new.
type Two<T> = [T; 2];

// The numbers of one system for the two builds, a guess for each, and the least times so far, in microseconds.
struct Case {
    inputs: Two<Input>,
    guess: Valuation,
    least: Two<f64>,
}

// What each build is asked on some systems.
struct Family {
    name: String,
    asks: Two<Ask>,
    cases: Vec<Case>,
}

// A case, once the two builds have given the same answers.
fn case(two: &Two<Search>, name: &str, asks: Two<Ask>, system: &System, guess: Valuation) -> Case {
    let inputs = two.each_ref().map(|search| system.input_of(search.parameters));
    let answers: Vec<_> = two.iter().zip(&inputs).map(|(search, input)| search.answers(input, guess)).collect();
    if answers[0] != answers[1] {
        println!("the searches disagree in '{name}': {answers:?}, on {:?} {:?}", system.ranges, system.list);
        std::process::exit(1);
    }
    let least = [0, 1].map(|k| time(1, || two[k].ask(asks[k], &inputs[k], guess)));
    Case { inputs, guess, least }
}

// The family of some systems that both builds are asked the same about.
fn drawn_family(two: &Two<Search>, name: &str, ask: Ask, systems: &[System]) -> Family {
    let cases = systems.iter().map(|s| case(two, name, [ask; 2], s, [0; 4])).collect();
    Family { name: name.to_string(), asks: [ask; 2], cases }
}

// Both sides of up to sixty tests of each sheet that has no more than so many parameters.
fn asked_by_windows(sheets: impl Iterator<Item = Sheet>, parameters: usize) -> Vec<Asked> {
    let mut all = Vec::new();
    for sheet in sheets.filter(|sheet| sheet.parameters.len() <= parameters) {
        let (tests, pieces) = asked::sample(&sheet, 60);
        if windows(&file(&sheet)) != pieces as i64 {
            println!("the tests of a sheet lead to {pieces} pieces, and Windows lists others: {sheet:?}");
            std::process::exit(1);
        }
        all.extend(tests);
    }
    all
}

// The families of some tests: each build is asked what tells soonest whether there is a valuation; or both for the first.
fn asked_families(two: &Two<Search>, what: &str, tests: &[Asked]) -> Vec<Family> {
    let soonest = two.each_ref().map(Search::soonest);
    let mut all = Vec::new();
    for asks in [soonest, [Ask::First; 2]] {
        let name = format!("{what}: {}, {}", asks[0].word(), asks[1].word());
        let cases = tests.iter().map(|test| case(two, &name, asks, &test.system, test.guess)).collect();
        all.push(Family { name, asks, cases });
    }
    all
}

// All families, with n systems each where they are random.
fn families(two: &Two<Search>, quick: bool) -> Vec<Family> {
    let (n, sheets) = if quick { (12, 1) } else { (200, 4) };
    let parameters = two[0].parameters.min(two[1].parameters);
    let space = if parameters == 3 { &THREE } else { &FOUR };
    let mut all = Vec::new();
    for f in space.families(n) {
        let ask = if matches!(f.question, Question::Count) { Ask::Count } else { Ask::First };
        all.push(drawn_family(two, f.name, ask, &f.systems));
    }
    let table = cuts::all(sheets).into_iter().flat_map(|f| f.sheets);
    let random = drawn::all(1).into_iter().flat_map(|f| f.sheets).map(|drawn| drawn.sheet);
    all.extend(asked_families(two, "asked by Windows, its table", &asked_by_windows(table, parameters)));
    all.extend(asked_families(two, "asked by Windows, random", &asked_by_windows(random, parameters)));
    all
}

// The least times over some passes through all systems, the two builds in turn on each; the one that comes first is the
// other one at each pass.
fn measure(two: &Two<Search>, families: &mut [Family], passes: usize, span: f64) {
    for number in 0..passes {
        let order = if number % 2 == 0 { [0, 1] } else { [1, 0] };
        at_depth(number, &mut || families.iter_mut().for_each(|f| pass(two, f, order, span)));
    }
}

// One more round of the two builds on each system of a family, in that order and right after each other.
fn pass(two: &Two<Search>, f: &mut Family, order: Two<usize>, span: f64) {
    for case in &mut f.cases {
        for k in order {
            round(&mut case.least[k], span, || two[k].ask(f.asks[k], &case.inputs[k], case.guess));
        }
    }
}

impl Family {
    // The least times of one build.
    fn times(&self, k: usize) -> Vec<f64> {
        self.cases.iter().map(|case| case.least[k]).collect()
    }

    // How many times the new build's time the old one takes, by a number of the times: the mean, or the median.
    fn ratio(&self, of: fn(&[f64]) -> f64) -> f64 {
        of(&self.times(0)) / of(&self.times(1))
    }
}

// One row of the table.
fn row(f: &Family) -> Vec<String> {
    let [old, new] = [0, 1].map(|k| f.times(k));
    let mut cells = vec![f.name.clone(), f.cases.len().to_string()];
    cells.extend([mean(&old), median(&old), mean(&new), median(&new)].map(|time| format!("{time:.3}")));
    cells.extend([f.ratio(mean), f.ratio(median)].map(|ratio| format!("{ratio:.2}")));
    cells
}

// The families in which the new build is slower.
fn print_slower(families: &[Family], word: &str, of: fn(&[f64]) -> f64) {
    let slower = families.iter().filter(|f| f.ratio(of) < 1.0);
    let words: Vec<String> = slower.map(|f| format!("{} ({:.2})", f.name, f.ratio(of))).collect();
    match words.len() {
        0 => println!("By the {word} no family is slower."),
        _ => println!("Slower by the {word}: {}.", words.join("; ")),
    }
}

// The table of the two builds in these folders, and the families that are slower.
pub fn run(folders: Two<&str>, quick: bool) {
    let two = folders.map(Search::load);
    let (passes, span) = if quick { (3, 50.0) } else { (12, 200.0) };
    let mut families = families(&two, quick);
    measure(&two, &mut families, passes, span);
    let [old, new] = two.each_ref().map(|search| search.parameters);
    println!("The search with {old} parameters before and {new} now. Times in microseconds; a ratio is before to now.");
    let times = ["before, mean", "median", "now, mean", "median"];
    let mut table = Table::new(&[&["family", "systems"][..], &times, &["ratio, means", "medians"]].concat());
    families.iter().for_each(|f| table.push(row(f)));
    table.print();
    println!();
    print_slower(&families, "mean", mean);
    print_slower(&families, "median", median);
}
