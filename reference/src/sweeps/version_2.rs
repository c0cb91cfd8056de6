//! Sheets of version 2 (paper 02, request (i)): results written by hand, and families of random sheets. The fourth
//! number of a valuation, in sheets of either version, and refusal 16 before 5 and 6.

use super::paper::Reply::{Refused, Void};
use super::paper::{case, file_case, le, lt, run1, Case, NONE};
use super::{around, at_all, by_hand, record, Record};
use crate::family::Family;
use crate::planned::{planned, random_shape, Planned, Shape};
use crate::random::Random;
use crate::rows;
use crate::samples::{
    at_most, below, biggest_sheet, c_with, in_version_2, of_widths, random_sheet, range, sheet_a,
    sheet_c, Size,
};
use crate::sheet::{read, Guard, Parameter, Sheet, MOST_CLOCKS, MOST_PARAMETERS, MOST_ROUTE};
use crate::valuations::{beyond, corners, some};
use crate::vectors::{damage, version_2};
use crate::writer;

/// The name of the family whose records are the cases.
pub const BY_HAND: &str = "version 2: results written by hand";

/// The families, in the order in which they are stored.
pub fn families(random: &mut Random) -> Vec<Family<Record>> {
    let mut list = Vec::new();
    let mut add = |name, records| list.push(Family { name, records });
    add(BY_HAND, by_hand(cases()));
    add("version 2: at all settings", at_all(sheets()));
    add("version 2: numbers outside the ranges", outside(random));
    add("version 2: small ranges, all settings", small(random));
    add("version 2: routes of 0 to 32 moves", routes(random));
    add("version 2: wide ranges", wide_ranges(random));
    add("version 2: guards everywhere", crowded(random));
    add("version 2: the biggest sheets", biggest(random));
    add("version 2: random sheets", loose(random));
    add("version 2: each rule at its limit", at_limits());
    add("version 2: damaged files", damaged(random));
    list
}

/// All cases.
pub fn cases() -> Vec<Case> {
    let mut list = settings();
    list.extend(refused_numbers());
    list.extend(refused_files());
    list
}

/// One stay, with those invariants, in four parameters.
fn four(parameters: [Parameter; 4], invariants: &[Guard]) -> Sheet {
    rows::one_stay(&parameters, invariants)
}

/// Sheets that have all their valuations tried.
fn sheets() -> Vec<Sheet> {
    let small = [range(-1, 1), range(0, 2), range(-2, 0), range(-1, 1)];
    let sum = at_most(1, 0, 0, [1, 2, -1, 3]);
    let apart = below(1, 0, 1, [0, 0, 1, -1]);
    vec![
        four(small, &[sum]),
        four(small, &[sum, apart]),
        c_with(|s| s.parameters = small.to_vec()),
        in_version_2(sheet_a()),
        in_version_2(rows::p_then_q()),
    ]
}

/// Sheets A and C, a sum that tells the four numbers apart, and a sheet by the fourth number alone.
fn settings() -> Vec<Case> {
    let a = in_version_2(sheet_a());
    let digits = four([range(0, 9); 4], &[at_most(1, 0, 0, [1, 10, 100, 1000])]);
    let strict = four([range(0, 9); 4], &[below(1, 0, 0, [1000, 100, 10, 1])]);
    let by_s = four([range(0, 0); 4], &[below(1, 0, 0, [0, 0, 0, 1])]);
    let mut s_to_5 = by_s.clone();
    s_to_5.parameters[3] = range(-5, 5);
    // clock 1 at most 1 + p - 2q + 4s, and at least 3 + s
    let c = sheet_c();
    vec![
        case("A at 2", &a, [2, 0, 0, 0], Void),
        case("A at 3", &a, [3, 0, 0, 0], run1(le(-3), NONE)),
        case("1, 2, 3, 4", &digits, [1, 2, 3, 4], run1(le(0), le(4321))),
        case("9, 0, 0, 0", &digits, [9, 0, 0, 0], run1(le(0), le(9))),
        case("0, 0, 0, 9", &digits, [0, 0, 0, 9], run1(le(0), le(9000))),
        case("below 1234", &strict, [1, 2, 3, 4], run1(le(0), lt(1234))),
        case("below 0, s is 0", &by_s, [0; 4], Void),
        case("below s, at 0", &s_to_5, [0; 4], Void),
        case("below s, at 5", &s_to_5, [0, 0, 0, 5], run1(le(0), lt(5))),
        case("below s, at -5", &s_to_5, [0, 0, 0, -5], Void),
        case("C at 0, 0, 7, 0", &c, [0, 0, 7, 0], Void),
        case("C at 2, 0, 7, 0", &c, [2, 0, 7, 0], run1(le(-3), NONE)),
        case("C at 0, -1, 7, 0", &c, [0, -1, 7, 0], run1(le(-3), NONE)),
        case("C at 7, 0, 7, -1", &c, [7, 0, 7, -1], run1(le(-2), NONE)),
        case("C at 4, 0, 7, -1", &c, [4, 0, 7, -1], Void),
        case("C at 10, -5, 7, -3", &c, [10, -5, 7, -3], run1(le(0), NONE)),
    ]
}

/// Numbers that are no valuation: the fourth of a sheet that has it, of one that lacks it, and of version 1.
fn refused_numbers() -> Vec<Case> {
    let a = sheet_a();
    let again = in_version_2(sheet_a());
    let c = sheet_c();
    let (low, high) = (i64::MIN, i64::MAX);
    vec![
        case("A with s 1", &a, [3, 0, 0, 1], Refused(6, 3)),
        case("A with s -1", &a, [3, 0, 0, -1], Refused(6, 3)),
        case("A with s -2^63", &a, [3, 0, 0, low], Refused(6, 3)),
        case("A with s 2^63 - 1", &a, [3, 0, 0, high], Refused(6, 3)),
        case("A with s 65,536", &a, [3, 0, 0, 65536], Refused(6, 3)),
        case("A with r and s 1", &a, [3, 0, 1, 1], Refused(6, 2)),
        case("A at 11 with s 1", &a, [11, 0, 0, 1], Refused(6, 0)),
        case("A in version 2, s 1", &again, [3, 0, 0, 1], Refused(6, 3)),
        case("C, s past it", &c, [0, 0, 7, 1], Refused(6, 3)),
        case("C, s before it", &c, [0, 0, 7, -4], Refused(6, 3)),
        case("C, s -2^63", &c, [0, 0, 7, low], Refused(6, 3)),
        case("C, s 2^32 - 1", &c, [0, 0, 7, (1 << 32) - 1], Refused(6, 3)),
        case("C, r past it", &c, [0, 0, 8, 1], Refused(6, 2)),
        case("C, q past it", &c, [0, 6, 8, 1], Refused(6, 1)),
        case("C, p past it", &c, [11, 6, 8, 1], Refused(6, 0)),
    ]
}

/// Files that are refused, whatever the numbers: 16 comes before 5 and 6, and after 4.
fn refused_files() -> Vec<Case> {
    let wide = || of_widths(&[64, 64, 64, 2]);
    let mut unlinked = c_with(|s| s.parameters = vec![range(0, 40); 4]);
    unlinked.transitions[0].from = 1;
    let mut wrong = unlinked.clone();
    wrong.route = vec![1];
    let apart = c_with(|s| s.transitions[0].from = 1);
    let version_3 = c_with(|s| s.version = 3);
    let far = [i64::MIN, i64::MAX, 1, -1];
    let most = of_widths(&[64, 64, 64, 1]);
    let free = || run1(le(0), NONE);
    vec![
        case("a product of 262,144", &most, [63, 63, 63, 0], free()),
        case("a product of 524,288", &wide(), [0; 4], Refused(16, 0)),
        case("a product past it, far", &wide(), far, Refused(16, 0)),
        case("16 and 5", &unlinked, far, Refused(16, 0)),
        case("16, 5 and 4", &wrong, far, Refused(4, 77)),
        case("5 and 6", &apart, far, Refused(5, 77)),
        case("version 3", &version_3, far, Refused(3, 0)),
        file_case(
            "22 bytes, lengths 0",
            writer::assemble(2, &Default::default()),
            far,
            Refused(4, 22),
        ),
    ]
}

/// A random shape of version 2 with that many parameters.
fn shape_of(
    random: &mut Random,
    parameters: usize,
    moves: usize,
    guards: usize,
    width: i16,
) -> Shape {
    Shape {
        version: 2,
        parameters,
        ..random_shape(random, moves, guards, width)
    }
}

/// Sheets of both versions with each count of parameters, at numbers that are no valuation.
fn outside(random: &mut Random) -> Vec<Record> {
    let mut list = Vec::new();
    for (version, parameters) in [
        (1, 0),
        (1, 2),
        (1, 3),
        (2, 0),
        (2, 1),
        (2, 2),
        (2, 3),
        (2, 4),
    ] {
        let mut shape = shape_of(random, parameters, 4, 2, 9);
        shape.version = version;
        let Planned { sheet, valuation } = planned(random, shape);
        let mut valuations = beyond(random, MOST_PARAMETERS, &sheet.parameters);
        valuations.push(valuation);
        list.push(record(&sheet, valuations));
    }
    list
}

/// Sheets with small ranges, at all their valuations.
fn small(random: &mut Random) -> Vec<Record> {
    let mut list = Vec::new();
    for n in 0..32 {
        let (parameters, width) = [(4, 2), (4, 2), (3, 4), (2, 9)][n % 4];
        let shape = shape_of(random, parameters, 7, 1 + n % 5, width);
        list.extend(at_all(vec![planned(random, shape).sheet]));
    }
    list
}

/// Sheets with routes of each second length, at some valuations.
fn routes(random: &mut Random) -> Vec<Record> {
    let mut list = Vec::new();
    for moves in (0..=MOST_ROUTE).step_by(2) {
        let mut shape = shape_of(random, 4, 0, 2, 21);
        shape.moves = moves;
        list.push(around(random, shape, 4));
    }
    list
}

/// Sheets with ranges of any width that 16 leaves, at their corners and at random valuations.
fn wide_ranges(random: &mut Random) -> Vec<Record> {
    let mut list = Vec::new();
    for n in 0..20 {
        let shape = shape_of(random, 1 + n % 4, 6, 3, 63);
        list.push(around(random, shape, 12));
    }
    list
}

/// Sheets with many locations and transitions and up to the most guards at each that a file takes.
fn crowded(random: &mut Random) -> Vec<Record> {
    let mut list = Vec::new();
    for n in 0..10 {
        let mut shape = shape_of(random, n % 5, MOST_ROUTE, 6, 20);
        shape.locations = 5 + random.below(6);
        shape.transitions = shape.locations + random.below(9);
        list.push(around(random, shape, 4));
    }
    list
}

/// One of the biggest sheets for each count of parameters, at the corners.
fn biggest(random: &mut Random) -> Vec<Record> {
    let mut list = Vec::new();
    for parameters in 0..=MOST_PARAMETERS {
        let clocks = 1 + parameters % MOST_CLOCKS;
        let sheet = biggest_sheet(random, 2, parameters, clocks as u8);
        list.push(record(&sheet, corners(&sheet.parameters)));
    }
    list
}

/// Random sheets, at some valuations. Nothing is asked of every second start.
fn loose(random: &mut Random) -> Vec<Record> {
    let mut list = Vec::new();
    for n in 0..30 {
        let mut sheet = random_sheet(random, 2, Size::SMALL);
        if n % 2 == 0 {
            sheet.locations[0].invariants.clear();
        }
        let valuations = some(random, &sheet.parameters, 3);
        list.push(record(&sheet, valuations));
    }
    list
}

/// The cases at the limits of the file's rules that are refused by 16, and those that are taken, at a corner.
fn at_limits() -> Vec<Record> {
    let mut list = Vec::new();
    for case in version_2::cases() {
        let valuations = match read(&case.file) {
            Ok(sheet) => vec![corners(&sheet.parameters)[0]],
            Err(refusal) if refusal.number == 16 => vec![[0; 4]],
            Err(_) => continue,
        };
        let file = case.file;
        list.push(Record { file, valuations });
    }
    list
}

/// Damaged files of every kind, at zeros and at numbers that are no valuation of any sheet.
fn damaged(random: &mut Random) -> Vec<Record> {
    let files = damage::every_kind(random, 2, [20, 3, 3, 10, 5, 10, 8]);
    let one = |file| Record {
        file,
        valuations: vec![[0; 4], [0, 0, 0, 1001]],
    };
    files.into_iter().map(one).collect()
}

#[cfg(test)]
mod tests {
    use super::*;

    /// Sweep gives the results that are written here.
    #[test]
    fn results_are_as_written() {
        for case in cases() {
            assert!(case.is_right(), "{}", case.name);
        }
    }
}
