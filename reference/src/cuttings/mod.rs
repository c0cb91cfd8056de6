//! The stored test vectors of Windows: which sheets and tables they are, and how they and their results
//! are stored.
//!
//! The records stand one after the other: a sheet file's length (u16, little-endian) and its bytes, and
//! the number of places of the table that is lent (u8). The results are text, a line for each record:
//! `L bytes R/P N K C D T` with the file's length, the refusal's number and place (0/0 for none), the counts
//! of zones, of valuations kept and of valuations cut (0 where it is refused), a digest of the table, and a
//! digest of counts of tests.
//!
//! T, the digest of counts of tests, starts from 0. For each filled place of the table in order (there is none
//! where Windows refuses), each of the invariants of location 0 in file order, and then of the guards of
//! transition 0 in file order, if the sheet has a transition, is put to that zone alone, at visit 0. The
//! numbers of each are: the refusal, or 0 where there is none; how many zones the guard lists; and for each of
//! them how many tests were asked on the way to it, 32 counts in all, zeros past the zones.

mod alone;
pub mod arrivals;
mod beside;
mod built;
pub mod counts;
pub mod drawn;
pub mod edges;
pub mod firsts;
#[cfg(test)]
mod held;
pub mod numbers;
pub mod paper;
#[cfg(test)]
mod sizes;
mod table;
#[cfg(test)]
mod tests;
pub mod version_2;
#[cfg(test)]
mod ways;

use crate::bound::{Bound, Expr};
use crate::family::Family;
use crate::random::Random;
use crate::sheet::{read, Refusal, Sheet};
use crate::valuations::Valuation;
use crate::vectors;
use crate::windows::{windows, Outcome, Windows, Zone, PLACES};
use crate::writer;
use table::digest_of;

/// The names of the families whose records are the cases of `paper`, of `edges`, of `firsts`, of `arrivals`,
/// of `counts` and of `numbers`.
pub const PAPER: &str = "results written by hand";
pub const EDGES: &str = "built to end at a limit or past it";
pub const FIRSTS: &str = "built for a first valuation";
pub const ARRIVALS: &str = "standing limits at the start and on arrival";
pub const COUNTS: &str = "tests of one guard on one zone";
pub const NUMBERS: &str = "the largest numbers of entries, sums and tests";

/// A sheet file, and how many places the table has that is lent with it.
#[derive(Clone, Debug, PartialEq, Eq)]
pub struct Record {
    pub file: Vec<u8>,
    pub places: u8,
}

/// All the families, in the order in which they are stored.
pub fn families() -> Vec<Family<Record>> {
    let random = &mut Random::new(3);
    let mut list = Vec::new();
    let mut add = |name, cases: Vec<Case>| {
        let records = cases.iter().map(Case::record).collect();
        list.push(Family { name, records });
    };
    add(PAPER, paper::cases());
    add(EDGES, edges::cases());
    add(FIRSTS, firsts::cases());
    add(ARRIVALS, arrivals::cases());
    add(COUNTS, counts::cases());
    add(NUMBERS, numbers::cases());
    list.push(Family {
        name: "guards beside the route",
        records: beside::records(&mut Random::new(8)),
    });
    list.extend(drawn::families(random));
    list.extend(version_2::families(&mut Random::new(11)));
    list
}

/// A record with the smallest table that is taken.
pub fn record(sheet: &Sheet) -> Record {
    record_of(writer::file(sheet), PLACES)
}

/// A record.
pub fn record_of(file: Vec<u8>, places: usize) -> Record {
    let places = u8::try_from(places).expect("a table has at most 255 places");
    Record { file, places }
}

/// What a record must give, written by hand: for each zone its first valuation and its inequalities, and the
/// counts of valuations kept and cut; the count of zones and those two alone; entries (i, j) of the only zone,
/// none of them strict; a refusal's number and place; or for each zone what each guard that is put to it leaves
/// of it (see T above).
#[derive(Clone, Debug)]
pub enum Reply {
    Zones(Vec<(Valuation, Vec<Expr>)>, usize, usize),
    Counts(usize, usize, usize),
    Entries(Vec<(usize, usize, Expr)>),
    Refused(u8, usize),
    Left(Vec<Left>),
}

/// What one guard leaves of one zone: for each zone that it lists the inequalities that it adds and how many
/// tests were asked on the way; those numbers of tests alone; or a refusal's number.
#[derive(Clone, Debug)]
pub enum Left {
    Zones(Vec<(Vec<Expr>, usize)>),
    Tests(Vec<usize>),
    Refused(u8),
}

/// Zones with those first valuations and inequalities, and the counts of valuations kept and cut.
fn zones(list: &[(Valuation, &[Expr])], kept: usize, cut: usize) -> Reply {
    let list = list.iter().map(|&(first, list)| (first, list.to_vec()));
    Reply::Zones(list.collect(), kept, cut)
}

/// What is tried, the file, the places of the table, and the result.
pub struct Case {
    pub name: String,
    pub file: Vec<u8>,
    pub places: usize,
    pub result: Reply,
}

/// A case with a table of 32 places.
fn case(name: &str, sheet: &Sheet, result: Reply) -> Case {
    file_case(name, writer::file(sheet), PLACES, result)
}

/// A case.
fn file_case(name: &str, file: Vec<u8>, places: usize, result: Reply) -> Case {
    Case {
        name: name.to_string(),
        file,
        places,
        result,
    }
}

impl Case {
    /// The case as a record.
    fn record(&self) -> Record {
        record_of(self.file.clone(), self.places)
    }

    /// Whether Windows, and one guard on one zone, give the result that is written beside the case.
    pub fn is_right(&self) -> bool {
        match (&self.result, windows(&self.file, self.places)) {
            (&Reply::Refused(number, place), found) => found == Err(Refusal { number, place }),
            (_, Err(_)) => false,
            (Reply::Counts(zones, kept, cut), Ok(found)) => {
                (found.zones.len(), found.kept, found.cut) == (*zones, *kept, *cut)
            }
            (Reply::Zones(list, kept, cut), Ok(found)) => {
                let zones = found.zones.into_iter();
                let shown = zones.map(|zone| (zone.first, zone.inequalities));
                shown.eq(list.iter().cloned()) && (found.kept, found.cut) == (*kept, *cut)
            }
            (Reply::Entries(list), Ok(found)) => {
                let strict = false;
                let is = |&(i, j, expr): &(usize, usize, Expr)| {
                    found.zones[0].bounds[i][j] == Bound::At { expr, strict }
                };
                found.zones.len() == 1 && list.iter().all(is)
            }
            (Reply::Left(list), Ok(found)) => {
                let sheet = read(&self.file).expect("Windows takes the file");
                let outcomes: Vec<_> = alone::outcomes(&sheet, &found.zones).collect();
                let mut pairs = list.iter().zip(&outcomes);
                list.len() == outcomes.len()
                    && pairs.all(|(left, (zone, outcome))| left.is_right(zone, outcome))
            }
        }
    }
}

impl Left {
    /// Whether this is what a guard leaves of a zone.
    fn is_right(&self, zone: &Zone, outcome: &alone::Outcome) -> bool {
        match (self, outcome) {
            (&Left::Refused(number), found) => *found == Err(Refusal { number, place: 0 }),
            (_, Err(_)) => false,
            (Left::Tests(tests), Ok(list)) => list.iter().map(|c| c.tests).eq(tests.clone()),
            (Left::Zones(zones), Ok(list)) => {
                let added = zone.inequalities.len();
                let shown = list
                    .iter()
                    .map(|c| (&c.zone.inequalities[added..], c.tests));
                shown.eq(zones.iter().map(|(list, tests)| (&list[..], *tests)))
            }
        }
    }
}

/// What Windows answers to a record.
pub fn answer(record: &Record) -> Outcome {
    windows(&record.file, usize::from(record.places))
}

/// The line of a record, with its line end.
pub fn line(record: &Record) -> String {
    let length = record.file.len();
    let table = |zones| digest_of(zones, usize::from(record.places));
    match answer(record) {
        Err(Refusal { number, place }) => {
            let blank = table(&[]);
            format!("{length} bytes {number}/{place} 0 0 0 {blank} 0\n")
        }
        Ok(Windows { zones, kept, cut }) => {
            let sheet = read(&record.file).expect("Windows takes the file");
            let (count, filled) = (zones.len(), table(&zones));
            let tests = alone::digest_of(&sheet, &zones);
            format!("{length} bytes 0/0 {count} {kept} {cut} {filled} {tests}\n")
        }
    }
}

/// A record as it is stored.
pub fn stored(record: &Record) -> Vec<u8> {
    let mut bytes = vectors::stored(&record.file);
    bytes.push(record.places);
    bytes
}

#[cfg(test)]
mod stored_tests {
    use super::*;

    /// A record is stored as its file and the places of its table.
    #[test]
    fn stored_with_places() {
        let record = record_of(vec![1, 2, 3], 40);
        assert_eq!(stored(&record), [3, 0, 1, 2, 3, 40]);
    }

    /// The digest of numbers one after the other.
    fn mixed(numbers: &[u64]) -> u64 {
        let with = |h, x| (h * 1_000_003 + x) % 1_000_000_007;
        numbers.iter().fold(0, with)
    }

    /// A blank table has the digest 0; sheet A's is that of its numbers one after the other.
    ///
    /// Of sheet A's zone the invariant, at most p, leaves one zone with 4 tests: p - 3 is not below 0, the clock
    /// has no upper bound, and entries (0, 0), (0, 1) and (1, 1) are asked. The transition's guard is in the
    /// zone already, which is one test.
    #[test]
    fn digests() {
        let case = &paper::cases()[0];
        let found = windows(&case.file, 32).unwrap();
        // used; 3, 0, 0 and 0 with their signs; one inequality, -3 + p
        let mut numbers = vec![1, 0, 3, 0, 0, 0, 0, 0, 0, 1, 1, 2, 0, 1];
        numbers.resize(10 + 24 * 10, 0);
        for (i, j) in (0..25).map(|k| (k / 5, k % 5)) {
            let mut bound = [0; 12];
            if (i, j) == (0, 1) {
                // -3 is negative, and -1 - -3 is 2
                (bound[2], bound[3]) = (1, 2);
            }
            bound[0] = u64::from((i, j) == (1, 0));
            numbers.extend(bound);
        }
        let places = 33;
        numbers.resize(places * (10 + 24 * 10 + 25 * 12), 0);
        let h = mixed(&numbers);
        assert_eq!(digest_of(&found.zones, places), h);
        assert_eq!(digest_of(&[], 40), 0);
        let mut tests = vec![0, 1, 4];
        tests.resize(34, 0);
        tests.extend([0, 1, 1]);
        tests.resize(2 * 34, 0);
        let t = mixed(&tests);
        assert_eq!(
            line(&record_of(case.file.clone(), 33)),
            format!("62 bytes 0/0 1 8 3 {h} {t}\n")
        );
        let refused = line(&record_of(case.file.clone(), 31));
        assert_eq!(refused, "62 bytes 1/0 0 0 0 0 0\n");
    }
}
