//! Families of random sheets whose ranges are cut.

use super::built::{envelopes, large_numbers, shaved};
use super::{record, record_of, Record};
use crate::family::Family;
use crate::planned::{crossed, planned, random_shape, Shape};
use crate::random::Random;
use crate::samples::{biggest_sheet, random_sheet, Size};
use crate::sheet::{Sheet, MOST_CLOCKS, MOST_GUARDS, MOST_ROUTE};
use crate::sweeps;
use crate::vectors::{damage, limits};
use crate::windows::PLACES;
use crate::writer;

/// All the families, in the order in which they are stored.
pub fn families(random: &mut Random) -> Vec<Family<Record>> {
    let mut list = Vec::new();
    let mut add = |name, records| list.push(Family { name, records });
    add("the sheets that Sweep is tried at", sweeps_sheets());
    add("one parameter", crossings(random, 200, 1, 63));
    add("two parameters", crossings(random, 350, 2, 16));
    add("three parameters", crossings(random, 350, 3, 7));
    add("routes of 0 to 32 moves", routes(random));
    add("guards everywhere", crowded(random));
    add("ranges anywhere", anywhere(random));
    add("lines that each are least somewhere", envelopes(random));
    add("ranges cut little by little", shaved(random));
    add("large numbers", large_numbers(random));
    add("random sheets", loose(random));
    add("wide ranges", wide_ranges(random));
    add("tables of every size", tables(random));
    add("each rule of the file at its limit", at_limits());
    add("damaged files", damaged(random));
    list
}

/// That many records, the n-th being made from n.
pub(super) fn many(count: usize, mut one: impl FnMut(usize) -> Record) -> Vec<Record> {
    (0..count).map(&mut one).collect()
}

/// A record with a table that is taken, most often the smallest.
pub(super) fn with_table(random: &mut Random, sheet: &Sheet) -> Record {
    let places = [PLACES, PLACES, PLACES, 33, 40][random.below(5)];
    record_of(writer::file(sheet), places)
}

/// The sheets of Sweep's own vectors that have results written by hand, and those of two guards that meet
/// or miss.
fn sweeps_sheets() -> Vec<Record> {
    let mut list: Vec<Record> = sweeps::paper::sheets().iter().map(record).collect();
    let meetings = sweeps::meetings();
    list.extend(meetings.into_iter().map(|r| record_of(r.file, PLACES)));
    list
}

/// Sheets with that many parameters of ranges up to that width, whose bounds cross.
fn crossings(random: &mut Random, count: usize, parameters: usize, width: i16) -> Vec<Record> {
    many(count, |n| {
        let mut shape = random_shape(random, 7, 2 + n % 5, width);
        shape.parameters = parameters;
        let sheet = crossed(random, shape).sheet;
        with_table(random, &sheet)
    })
}

/// Sheets with routes of each length and each count of clocks.
fn routes(random: &mut Random) -> Vec<Record> {
    many(MOST_CLOCKS * (MOST_ROUTE + 1), |n| {
        let mut shape = random_shape(random, 0, 3, [30, 12, 5][n % 3]);
        shape.parameters = n % 3 + 1;
        shape.moves = n / MOST_CLOCKS;
        shape.clocks = 1 + (n % MOST_CLOCKS) as u8;
        let sheet = crossed(random, shape).sheet;
        with_table(random, &sheet)
    })
}

/// Sheets with up to six guards at each place, on short routes and long ones.
fn crowded(random: &mut Random) -> Vec<Record> {
    many(300, |n| {
        let parameters = n % 2 + 2;
        let shape = Shape {
            parameters,
            width: [20, 9][n % 2],
            moves: random.below([6, 14, MOST_ROUTE + 1][n % 3]),
            ..random_shape(random, 0, MOST_GUARDS, 0)
        };
        let sheet = crossed(random, shape).sheet;
        with_table(random, &sheet)
    })
}

/// Sheets around a run, with 0 to 3 parameters and ranges up to the ends of what is allowed.
fn anywhere(random: &mut Random) -> Vec<Record> {
    many(200, |n| {
        let mut shape = random_shape(random, 7, 1 + n % 6, [0, 63, 20, 9][n % 4]);
        shape.parameters = n % 4;
        let sheet = planned(random, shape).sheet;
        with_table(random, &sheet)
    })
}

/// Any good sheets, their ranges made narrower. Nothing is asked of half of the starts.
fn loose(random: &mut Random) -> Vec<Record> {
    many(200, |n| {
        let size = [Size::SMALL, Size::SMALL, Size::ROUTED, Size::MIDDLE][n % 4];
        let mut sheet = random_sheet(random, 1, size);
        for p in &mut sheet.parameters {
            p.highest = p.highest.min(p.lowest + 9);
        }
        if random.once_in(2) {
            sheet.locations[0].invariants.clear();
        }
        with_table(random, &sheet)
    })
}

/// Ranges of up to 64 values, three of them in most cases; few guards.
fn wide_ranges(random: &mut Random) -> Vec<Record> {
    many(30, |n| {
        let shape = Shape {
            parameters: 2 + usize::from(n % 3 > 0),
            width: 63,
            ..random_shape(random, 3, 2, 0)
        };
        let sheet = crossed(random, shape).sheet;
        with_table(random, &sheet)
    })
}

/// Sheets with tables of 0 to 40 places.
fn tables(random: &mut Random) -> Vec<Record> {
    many(82, |n| {
        let mut shape = random_shape(random, 4, 3, 9);
        shape.parameters = 2;
        let sheet = crossed(random, shape).sheet;
        record_of(writer::file(&sheet), n % 41)
    })
}

/// The cases at the limits of the file's rules, their ranges as they are, and the biggest sheets.
fn at_limits() -> Vec<Record> {
    let cases = limits::cases().into_iter();
    let mut list: Vec<Record> = cases.map(|case| record_of(case.file, PLACES)).collect();
    let random = &mut Random::new(4);
    for clocks in 1..=MOST_CLOCKS {
        let mut sheet = biggest_sheet(random, 1, 3, clocks as u8);
        for p in &mut sheet.parameters {
            p.highest = p.lowest + 3;
        }
        list.push(record(&sheet));
    }
    list
}

/// Damaged files of every kind; some are still good.
fn damaged(random: &mut Random) -> Vec<Record> {
    let files = damage::every_kind(random, 1, [120, 20, 20, 60, 30, 80, 40]);
    let one = |file| record_of(file, PLACES);
    files.into_iter().map(one).collect()
}
