//! The stored test vectors of Sweep: which sheets and valuations they are, and how they and their
//! results are stored.
//!
//! The records stand one after the other: a sheet file's length (u16, little-endian) and its bytes,
//! the count of its valuations (u8), and each valuation as four numbers (i64, little-endian). The
//! results are text, a line for each record: the file's length, and for each valuation N/P/D, the
//! answer's number (0 a run, 1 void, else the refusal), its place (0 for a run and void), and a
//! digest of its matrix.

pub mod arrivals;
pub mod paper;
pub mod version_2;

use crate::cuttings::edges;
use crate::digest::{digest, signed};
use crate::family::Family;
use crate::planned::{planned, random_shape, Planned, Shape};
use crate::random::Random;
use crate::samples::{along, at_most, biggest_sheet, random_sheet, range, Size};
use crate::sheet::{parameters_of, read, Sheet, MOST_CLOCKS, MOST_ROUTE};
use crate::sweep::{sweep, Matrix, ZEROS};
use crate::valuations::{all, beyond, corners, some, Valuation};
use crate::vectors::{self, damage, limits};
use crate::weight::Weight;
use crate::writer;

/// The names of the families whose records are the cases of `paper` and of `arrivals`.
pub const PAPER: &str = "results written by hand";
pub const ARRIVALS: &str = "standing limits at the start and on arrival";

/// A sheet file, and the valuations at which it is tried.
#[derive(Clone, Debug, PartialEq, Eq)]
pub struct Record {
    pub file: Vec<u8>,
    pub valuations: Vec<Valuation>,
}

/// All the families, in the order in which they are stored.
pub fn families() -> Vec<Family<Record>> {
    let random = &mut Random::new(2);
    let mut list = Vec::new();
    let mut add = |name, records| list.push(Family { name, records });
    add(PAPER, by_hand(paper::cases()));
    add(ARRIVALS, by_hand(arrivals::cases()));
    add("the paper's sheets at all settings", papers(random));
    add("arrivals at all settings", at_all(arrivals::sheets()));
    add("two guards that meet or miss", meetings());
    add("numbers outside the ranges", outside(random));
    add("small ranges, all settings", small_ranges(random));
    add("routes of 0 to 32 moves", routes(random));
    add("wide ranges", wide_ranges(random));
    add("guards everywhere", crowded(random));
    add("the biggest sheets", biggest(random));
    add("random sheets", loose(random));
    add("each rule of the file at its limit", at_limits());
    add("damaged files", damaged(random));
    add("sheets at a limit of Windows", at_windows_limits(random));
    list.extend(version_2::families(&mut Random::new(10)));
    list
}

/// A record.
fn record(sheet: &Sheet, valuations: Vec<Valuation>) -> Record {
    let file = writer::file(sheet);
    Record { file, valuations }
}

/// Cases with results written by hand.
fn by_hand(cases: Vec<paper::Case>) -> Vec<Record> {
    let one = |case: paper::Case| Record {
        file: case.file,
        valuations: vec![case.valuation],
    };
    cases.into_iter().map(one).collect()
}

/// Those sheets, each at all its valuations.
fn at_all(sheets: Vec<Sheet>) -> Vec<Record> {
    let one = |sheet: &Sheet| record(sheet, all(&sheet.parameters));
    sheets.iter().map(one).collect()
}

/// The sheets that end at a limit of refusals 7 and 8 or past it, which Sweep does not meet, at the
/// corners of their ranges and at some other valuations.
fn at_windows_limits(random: &mut Random) -> Vec<Record> {
    let mut list = Vec::new();
    for file in edges::cases().into_iter().map(|case| case.file) {
        let parameters = read(&file).expect("the sheet is good").parameters;
        let mut valuations = corners(&parameters);
        valuations.extend(some(random, &parameters, 8));
        list.push(Record { file, valuations });
    }
    list
}

/// The sheets of "Sheets to try", each at all its valuations and beyond.
fn papers(random: &mut Random) -> Vec<Record> {
    let mut list = Vec::new();
    for sheet in paper::sheets() {
        let mut valuations = all(&sheet.parameters);
        valuations.extend(beyond(random, 3, &sheet.parameters));
        list.push(record(&sheet, valuations));
    }
    list
}

/// An upper guard p and a lower guard -q on one clock, of either relation, with p and q close to
/// each other and to 0: met in the same visit or in two, with a reset of another clock between or
/// not. The first one is judged at the start too, or at a move alone.
pub fn meetings() -> Vec<Record> {
    let mut list = Vec::new();
    for n in 0..64 {
        let yes = |bit: u8| n >> bit & 1 == 1;
        let mut up = at_most(1, 0, 0, [1, 0, 0, 0]);
        let mut down = at_most(0, 1, 0, [0, -1, 0, 0]);
        up.strict = yes(0);
        down.strict = yes(1);
        let (first, second) = if yes(2) { (up, down) } else { (down, up) };
        let resets = if yes(3) { 0b10 } else { 0 };
        let (there, back) = if yes(4) {
            (vec![second], vec![])
        } else {
            (vec![], vec![second])
        };
        let (start, before) = if yes(5) {
            (vec![], vec![first])
        } else {
            (vec![first], vec![])
        };
        let moves = [(resets, [before, back].concat())];
        let sheet = along(&[range(-2, 2); 2], 2, &[start, there], &[0, 1], &moves);
        list.push(record(&sheet, all(&sheet.parameters)));
    }
    list
}

/// Sheets with each count of parameters, at numbers that are no valuation.
fn outside(random: &mut Random) -> Vec<Record> {
    let mut list = Vec::new();
    for n in 0..16 {
        let mut shape = random_shape(random, 4, 2, [0, 9, 63, 20][n / 4]);
        shape.parameters = n % 4;
        let Planned { sheet, valuation } = planned(random, shape);
        let mut valuations = beyond(random, 3, &sheet.parameters);
        valuations.push(valuation);
        list.push(record(&sheet, valuations));
    }
    list
}

/// Sheets with small ranges, at all their valuations.
fn small_ranges(random: &mut Random) -> Vec<Record> {
    let mut list = Vec::new();
    for n in 0..120 {
        let mut shape = random_shape(random, 7, 1 + n % 4, [63, 9, 4][n % 3]);
        shape.parameters = [1, 2, 3][n % 3];
        let sheet = planned(random, shape).sheet;
        list.push(record(&sheet, all(&sheet.parameters)));
    }
    list
}

/// Sheets with routes of each length and each count of clocks, at some valuations.
fn routes(random: &mut Random) -> Vec<Record> {
    let mut list = Vec::new();
    for n in 0..4 * (MOST_ROUTE + 1) {
        let mut shape = random_shape(random, 0, 2, 30);
        shape.moves = n / 4;
        shape.clocks = 1 + (n % 4) as u8;
        list.push(around(random, shape, 4));
    }
    list
}

/// A planned sheet of that shape, at the valuation that it was planned for, the corners of its ranges
/// and that many others.
fn around(random: &mut Random, shape: Shape, others: usize) -> Record {
    let Planned { sheet, valuation } = planned(random, shape);
    let mut valuations = vec![valuation];
    valuations.extend(corners(&sheet.parameters));
    valuations.extend(some(random, &sheet.parameters, others));
    record(&sheet, valuations)
}

/// Sheets with ranges of any width, at their corners and at many random valuations.
fn wide_ranges(random: &mut Random) -> Vec<Record> {
    let mut list = Vec::new();
    for _ in 0..100 {
        let shape = random_shape(random, 6, 3, 63);
        list.push(around(random, shape, 16));
    }
    list
}

/// Sheets with many locations and transitions and up to the most guards at each.
fn crowded(random: &mut Random) -> Vec<Record> {
    let mut list = Vec::new();
    for n in 0..24 {
        let mut shape = random_shape(random, MOST_ROUTE, 6, 63);
        shape.parameters = n % 4;
        shape.locations = 5 + random.below(6);
        shape.transitions = shape.locations + random.below(9);
        list.push(around(random, shape, 6));
    }
    list
}

/// Two of the biggest sheets for each count of parameters, at their corners.
fn biggest(random: &mut Random) -> Vec<Record> {
    let mut list = Vec::new();
    for n in 0..2 * (parameters_of(1) + 1) {
        let clocks = 1 + n % MOST_CLOCKS;
        let sheet = biggest_sheet(random, 1, n / 2, clocks as u8);
        list.push(record(&sheet, corners(&sheet.parameters)));
    }
    list
}

/// Random sheets, at a valuation and a corner. Nothing is asked of every second start.
fn loose(random: &mut Random) -> Vec<Record> {
    let mut list = Vec::new();
    for n in 0..200 {
        let mut sheet = random_sheet(random, 1, Size::SMALL);
        if n % 2 == 0 {
            sheet.locations[0].invariants.clear();
        }
        let mut valuations = some(random, &sheet.parameters, 3);
        valuations.push(corners(&sheet.parameters)[0]);
        list.push(record(&sheet, valuations));
    }
    list
}

/// The cases at the limits of the file's rules, at zeros.
fn at_limits() -> Vec<Record> {
    let one = |case: limits::Case| Record {
        file: case.file,
        valuations: vec![[0; 4]],
    };
    limits::cases().into_iter().map(one).collect()
}

/// Damaged files of every kind, at zeros and at numbers that are no valuation of any sheet.
fn damaged(random: &mut Random) -> Vec<Record> {
    let files = damage::every_kind(random, 1, [250, 30, 30, 120, 50, 150, 80]);
    let one = |file| Record {
        file,
        valuations: vec![[0; 4], [0, 1001, i64::MIN, 0]],
    };
    files.into_iter().map(one).collect()
}

/// The line of a record, with its line end.
pub fn line(record: &Record) -> String {
    let mut text = format!("{} bytes", record.file.len());
    for &v in &record.valuations {
        text += &answer(&record.file, v);
    }
    text + "\n"
}

/// What Sweep answers at a valuation, after a space.
fn answer(file: &[u8], v: Valuation) -> String {
    let (number, place, matrix) = match sweep(file, v) {
        Ok(Some(matrix)) => (0, 0, matrix),
        Ok(None) => (1, 0, ZEROS),
        Err(refusal) => (refusal.number, refusal.place, ZEROS),
    };
    format!(" {number}/{place}/{}", digest(numbers(&matrix)))
}

/// The numbers of a matrix, entry by entry in row order: 1 if it is none, 1 if it is strict, each 0 otherwise,
/// and then its number with sign, which is 0 for none.
fn numbers(matrix: &Matrix) -> impl Iterator<Item = u64> + '_ {
    matrix.iter().flatten().flat_map(|&weight| {
        let (none, strict, value) = match weight {
            Weight::None => (true, false, 0),
            Weight::At { value, strict } => (false, strict, value),
        };
        let [negative, size] = signed(value);
        [u64::from(none), u64::from(strict), negative, size]
    })
}

/// A record as it is stored.
pub fn stored(record: &Record) -> Vec<u8> {
    let Record { file, valuations } = record;
    let mut bytes = vectors::stored(file);
    bytes.push(u8::try_from(valuations.len()).expect("a record has at most 255 valuations"));
    for x in valuations.iter().flatten() {
        bytes.extend(x.to_le_bytes());
    }
    bytes
}

#[cfg(test)]
mod tests {
    use super::*;

    /// A record is stored as its file, the count of its valuations, and these.
    #[test]
    fn stored_with_valuations() {
        let record = Record {
            file: vec![1, 2, 3],
            valuations: vec![[i64::MIN, -1, 258, 3]],
        };
        let mut right = vec![3, 0, 1, 2, 3, 1, 0, 0, 0, 0, 0, 0, 0, 128];
        right.extend([255; 8]);
        right.extend([2, 1, 0, 0, 0, 0, 0, 0]);
        right.extend([3, 0, 0, 0, 0, 0, 0, 0]);
        assert_eq!(stored(&record), right);
    }
}
