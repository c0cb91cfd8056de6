//! The stored listings: which files they are of, and how they are stored.
//!
//! The files stand one after the other, as those of `vectors` do. The listings are text: for each file a
//! line `case N: NAME`, and then what the program prints. Names say what is tried; N counts from 1.
//!
//! The sheets of the paper are not among them. They stand in the folder `sheets`, beside their texts.

use crate::cuttings::{self, arrivals, drawn, edges, firsts, numbers, version_2, Record};
use crate::family::Family;
use crate::listing::listing;
use crate::random::Random;
use crate::samples::{at_most, biggest_sheet, range};
use crate::sheet::Sheet;
use crate::vectors::{self, limits};
use crate::writer;
use std::collections::HashSet;

/// How many of each family of Windows' vectors there are, drawn anew.
const OF_EACH: usize = 5;
/// The most bytes of a listing of one of these.
const MOST_TEXT: usize = 6_000;

/// What is tried, and the file.
pub struct Case {
    pub name: String,
    pub file: Vec<u8>,
}

/// All cases, in the order in which they are stored. A file that has come before is left out.
pub fn cases() -> Vec<Case> {
    let mut list = refused_files(limits::cases());
    list.extend(far_places());
    list.extend(built(edges::cases()));
    list.push(largest_numbers());
    list.extend(some_of_each(drawn::families(&mut Random::new(7))));
    list.extend(built(firsts::cases()));
    list.extend(built(arrivals::cases()));
    list.extend(built(numbers::cases()));
    list.extend(refused_files(vectors::version_2::cases()));
    list.extend(built(version_2::cases()));
    list.extend(some_of_each(version_2::drawn(&mut Random::new(12))));
    let mut seen = HashSet::new();
    list.retain(|case| seen.insert(case.file.clone()));
    list
}

/// The listings of the cases, each after a line that names it.
pub fn text(cases: &[Case]) -> String {
    let named = (1..).zip(cases).map(|(n, case)| {
        let Case { name, file } = case;
        format!("case {n}: {name}\n{}", listing(file))
    });
    named.collect()
}

/// Refusals 2 to 5 and 16: the files just past a limit of the file's rules.
fn refused_files(cases: Vec<limits::Case>) -> Vec<Case> {
    let cases = cases.into_iter();
    let refused = cases.filter(|case| case.result.refusal().is_some());
    let one = |case: limits::Case| Case {
        name: case.name.to_string(),
        file: case.file,
    };
    refused.map(one).collect()
}

/// Refusals 4 and 5 at the last bytes of the biggest sheet, where places have four digits.
fn far_places() -> Vec<Case> {
    let sheet = biggest_sheet(&mut Random::new(3), 1, 3, 4);
    let with_last = |number: usize| {
        let mut route = sheet.route.clone();
        *route.last_mut().expect("the route is the longest") = number as u8;
        let sheet = sheet.clone();
        writer::file(&Sheet { route, ..sheet })
    };
    let last = usize::from(*sheet.route.last().expect("the route is the longest"));
    let from = sheet.transitions[last].from;
    let elsewhere = sheet.transitions.iter().position(|t| t.from != from);
    let mut bodies = writer::bodies(&sheet);
    bodies[3].push(0);
    let one = |name: &str, file| Case {
        name: format!("the biggest sheet, {name}"),
        file,
    };
    vec![
        one("a byte left over", writer::assemble(1, &bodies)),
        one(
            "the last move past the moves",
            with_last(sheet.transitions.len()),
        ),
        one(
            "the last move from elsewhere",
            with_last(elsewhere.expect("not all moves are from there")),
        ),
    ]
}

/// Sheets that are built for Windows' vectors: those that end at a limit or past it (refusals 7 and
/// 8, 32 zones and none), those that are built for a first valuation, those with standing limits on
/// arrival, and those with the largest numbers.
fn built(cases: Vec<cuttings::Case>) -> Vec<Case> {
    let one = |case: cuttings::Case| Case {
        name: case.name,
        file: case.file,
    };
    cases.into_iter().map(one).collect()
}

/// A clock that is never reset beside one that each of 32 moves resets, with bounds as far from zero as they
/// go, or nearly: those of the first clock are the sums of 33 above and of 32 below.
fn largest_numbers() -> Case {
    let stay = at_most(2, 0, 1000, [1000, 1000, 1000, 0]);
    let leave = at_most(0, 2, -999, [-999, -999, -999, 0]);
    let sheet = numbers::chain(&[range(0, 1); 3], stay, &[leave]);
    Case {
        name: "the largest numbers".to_string(),
        file: writer::file(&sheet),
    }
}

/// The last sheets of each family of Windows' vectors whose listings are not too long. (The first ones of a
/// family that is not drawn are the paper's.)
fn some_of_each(families: Vec<Family<Record>>) -> Vec<Case> {
    let mut list = Vec::new();
    for Family { name, records } in families {
        let files = records.into_iter().rev().map(|record| record.file);
        let short = files.filter(|file| listing(file).len() <= MOST_TEXT);
        for (k, file) in (1..).zip(short.take(OF_EACH)) {
            let name = format!("{name}, {k}");
            list.push(Case { name, file });
        }
    }
    list
}

#[cfg(test)]
mod tests {
    use super::*;
    use crate::sheet::read;

    /// There are files of every length at which something changes.
    #[test]
    fn lengths_are_there() {
        let lengths: HashSet<usize> = cases().iter().map(|case| case.file.len()).collect();
        for length in [0, 21, 22, 4096, 4097] {
            assert!(lengths.contains(&length), "{length}");
        }
    }

    /// Each refusal that a listing can show comes at several places (2 and 16 have one alone).
    #[test]
    fn refusals_are_there() {
        let lines: HashSet<String> = cases().iter().map(|c| listing(&c.file)).collect();
        for (number, places) in [(2, 1), (3, 13), (4, 40), (5, 7), (7, 7), (8, 4), (16, 1)] {
            let start = format!("refused {number} place ");
            let count = lines.iter().filter(|line| line.starts_with(&start)).count();
            assert!(count >= places, "{count} places of refusal {number}");
        }
    }

    /// For each count of clocks there are listings of one zone and of several, with strict bounds; there are
    /// listings of no zone and of 32, and numbers of five digits.
    #[test]
    fn zones_are_there() {
        let listed = |clocks: u8, words: &[&str]| {
            cases().iter().any(|case| {
                let text = listing(&case.file);
                read(&case.file).is_ok_and(|sheet| sheet.clocks == clocks)
                    && words.iter().all(|word| text.contains(word))
            })
        };
        for clocks in 1..=4 {
            assert!(listed(clocks, &["pieces 1 ", " lt "]), "{clocks}");
            assert!(listed(clocks, &["\npiece 2\n", " lt "]), "{clocks}");
        }
        assert!(listed(1, &["pieces 0 "]));
        assert!(listed(2, &["pieces 32 "]));
        let sums = "bound 0 1 le -31968 -31968 -31968 -31968 0\nbound 0 2";
        assert!(listed(
            2,
            &[sums, "bound 1 0 le 33000 33000 33000 33000 0\n"]
        ));
    }
}
