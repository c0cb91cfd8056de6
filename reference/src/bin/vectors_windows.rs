//! Writes the stored test vectors of Windows and their results into the folder of the program that runs
//! them, or, with `--check`, compares what is stored there with a fresh computation.
//!
//! Use: `vectors_windows [--check] FOLDER`, or `vectors_windows --list` to see which lines of the results
//! belong to which family.

use reference::bound::Expr;
use reference::cuttings::{
    answer, arrivals, counts, edges, families, firsts, line, numbers, paper, stored, version_2,
    Case, Left, Reply, ARRIVALS, COUNTS, EDGES, FIRSTS, NUMBERS, PAPER,
};
use reference::family;
use reference::tool::{run, Stored};
use reference::windows::{Outcome, PLACES};
use std::process::ExitCode;

fn main() -> ExitCode {
    run("vectors_windows", list, vectors)
}

/// The records and their results.
fn vectors() -> Stored {
    Stored::vectors("data/windows.bin", &families(), stored, line)
}

/// How often each refusal comes, and each count of zones where there is none.
struct Tally {
    refused: [usize; 17],
    zones: [usize; PLACES + 1],
}

impl Tally {
    fn new() -> Tally {
        Tally {
            refused: [0; 17],
            zones: [0; PLACES + 1],
        }
    }

    /// Counts an answer.
    fn add(&mut self, answer: &Outcome) {
        match answer {
            Ok(found) => self.zones[found.zones.len()] += 1,
            Err(refusal) => self.refused[usize::from(refusal.number)] += 1,
        }
    }

    fn print(&self) {
        println!("  refusals 1 to 16: {:?}", &self.refused[1..]);
        println!("  0 to 32 zones: {:?}", self.zones);
    }
}

/// Prints each family, how often each answer comes, and what each case written by hand tries and must give.
fn list() {
    let mut whole = Tally::new();
    family::list(&families(), stored, |family, first| {
        let mut tally = Tally::new();
        for found in family.records.iter().map(answer) {
            tally.add(&found);
            whole.add(&found);
        }
        tally.print();
        let cases = match family.name {
            PAPER => paper::cases(),
            EDGES => edges::cases(),
            FIRSTS => firsts::cases(),
            ARRIVALS => arrivals::cases(),
            COUNTS => counts::cases(),
            NUMBERS => numbers::cases(),
            version_2::BY_HAND => version_2::cases(),
            version_2::SHIFTED => version_2::shifted_cases(),
            _ => return,
        };
        family::list_cases(first, cases.into_iter().map(words));
    });
    println!("all lines");
    whole.print();
}

/// A case in words: what it tries, and what it must give.
fn words(case: Case) -> (String, String) {
    let result = match case.result {
        Reply::Zones(list, kept, cut) => {
            format!("{} zones, {kept} kept, {cut} cut", list.len())
        }
        Reply::Counts(zones, kept, cut) => format!("{zones} zones, {kept} kept, {cut} cut"),
        Reply::Entries(list) => {
            let one = |(i, j, e): &(usize, usize, Expr)| format!("({i}, {j}) is {e:?}");
            let each: Vec<String> = list.iter().map(one).collect();
            format!("one zone, {}", each.join(", "))
        }
        Reply::Refused(number, place) => format!("refused {number} place {place}"),
        Reply::Left(list) => {
            let each: Vec<String> = list.iter().map(left_words).collect();
            format!("tests {}", each.join("; "))
        }
    };
    (case.name, result)
}

/// What one guard leaves of one zone: the counts of tests of its zones, or the refusal.
fn left_words(left: &Left) -> String {
    let tests: Vec<usize> = match left {
        Left::Zones(list) => list.iter().map(|&(_, tests)| tests).collect(),
        Left::Tests(list) => list.clone(),
        Left::Refused(number) => return format!("refused {number}"),
    };
    let same = |list: &[usize]| match list.len() {
        1 => format!("{}", list[0]),
        count => format!("{count} times {}", list[0]),
    };
    let words: Vec<String> = tests.chunk_by(|x, y| x == y).map(same).collect();
    if words.is_empty() {
        return "no zone".to_string();
    }
    words.join(" and ")
}
