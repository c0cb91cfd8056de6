//! Sheets at one valuation with results written by hand: the rows of paper 01, "Sheets to try", that
//! concern Sweep, its "Wrong turns", and the order of the refusals. A test holds Sweep to them.

use crate::rows;
use crate::samples::{a_with, at_most, below, range, sheet_a};
use crate::sheet::{read, Refusal, Sheet};
use crate::sweep::sweep;
use crate::valuations::Valuation;
use crate::weight::Weight;
use crate::writer;
use Reply::{Refused, Run, Void};

/// The result that the paper gives: the entries of clock 0 and the sheet's clocks, void, or a
/// refusal's number and place.
#[derive(Clone, Debug)]
pub enum Reply {
    Run(Vec<Vec<Weight>>),
    Void,
    Refused(u8, usize),
}

/// What is tried, the file, the numbers, and the result.
pub struct Case {
    pub name: &'static str,
    pub file: Vec<u8>,
    pub valuation: Valuation,
    pub result: Reply,
}

impl Case {
    /// Whether Sweep gives the result that is written beside the case.
    pub fn is_right(&self) -> bool {
        match (&self.result, sweep(&self.file, self.valuation)) {
            (&Refused(number, place), found) => found == Err(Refusal { number, place }),
            (Void, found) => found == Ok(None),
            (Run(rows), Ok(Some(m))) => {
                let n = rows.len();
                let clocks = read(&self.file).map(|sheet| usize::from(sheet.clocks));
                let inner: Vec<Vec<Weight>> = m[..n].iter().map(|r| r[..n].to_vec()).collect();
                clocks == Ok(n - 1) && &inner == rows
            }
            _ => false,
        }
    }
}

/// All cases.
pub fn cases() -> Vec<Case> {
    let mut list = paper_rows();
    list.extend(wrong_turns());
    list.extend(refused_files());
    list.extend(refused_numbers());
    list
}

/// The sheets of the rows, and sheet A with other counts.
pub fn sheets() -> Vec<Sheet> {
    vec![
        sheet_a(),
        rows::a_strict(),
        rows::p_then_q(),
        rows::q_then_p(),
        rows::no_limits(),
        rows::below_zero(),
        rows::from_minus_p(),
        rows::at_once(),
        rows::never(),
        rows::two_clocks(at_most(1, 0, 5, [0; 4])),
        rows::two_clocks(below(1, 0, 5, [0; 4])),
        rows::wait_keeps(),
        rows::three_clocks(),
    ]
}

/// At most c.
pub(super) fn le(value: i64) -> Weight {
    Weight::At {
        value,
        strict: false,
    }
}

/// Below c.
pub(super) fn lt(value: i64) -> Weight {
    Weight::At {
        value,
        strict: true,
    }
}

/// None.
pub(super) const NONE: Weight = Weight::None;

/// A run with those entries, row by row.
pub(super) fn run<const N: usize>(rows: [[Weight; N]; N]) -> Reply {
    Run(rows.map(|row| row.to_vec()).to_vec())
}

/// A run of a sheet with one clock: entries (0, 1) and (1, 0), the others being zero, not strict.
pub(super) fn run1(down: Weight, up: Weight) -> Reply {
    run([[le(0), down], [up, le(0)]])
}

/// A case.
pub(super) fn case(name: &'static str, sheet: &Sheet, valuation: Valuation, result: Reply) -> Case {
    file_case(name, writer::file(sheet), valuation, result)
}

/// A case with a file.
pub(super) fn file_case(
    name: &'static str,
    file: Vec<u8>,
    valuation: Valuation,
    result: Reply,
) -> Case {
    Case {
        name,
        file,
        valuation,
        result,
    }
}

/// Rows of "Sheets to try".
fn paper_rows() -> Vec<Case> {
    let a = sheet_a();
    let strict = rows::a_strict();
    let pq = rows::p_then_q();
    let qp = rows::q_then_p();
    let down = rows::from_minus_p();
    let at_3 = || run1(le(-3), NONE);
    vec![
        case("A at 0", &a, [0, 0, 0, 0], Void),
        case("A at 2", &a, [2, 0, 0, 0], Void),
        case("A at 3", &a, [3, 0, 0, 0], at_3()),
        case("A at 10", &a, [10, 0, 0, 0], at_3()),
        case("A with < at 3", &strict, [3, 0, 0, 0], Void),
        case("A with < at 4", &strict, [4, 0, 0, 0], at_3()),
        case("<= p, <= q: 4, 2", &pq, [4, 2, 0, 0], run1(le(0), le(2))),
        case("<= p, <= q: 2, 4", &pq, [2, 4, 0, 0], run1(le(0), le(2))),
        case("<= p, <= q: 0, 0", &pq, [0, 0, 0, 0], run1(le(0), le(0))),
        case("<= q, <= p: 4, 2", &qp, [4, 2, 0, 0], run1(le(0), le(2))),
        case("<= q, <= p: 5, 5", &qp, [5, 5, 0, 0], run1(le(0), le(5))),
        case(
            "no limits, empty route",
            &rows::no_limits(),
            [0, 0, 0, 0],
            run1(le(0), NONE),
        ),
        case("< p, p in 0..0", &rows::below_zero(), [0, 0, 0, 0], Void),
        case("0 - 1 <= p at -5", &down, [-5, 0, 0, 0], run1(le(-5), NONE)),
        case("0 - 1 <= p at -1", &down, [-1, 0, 0, 0], run1(le(-1), NONE)),
        case("0 - 1 <= p at 0", &down, [0, 0, 0, 0], run1(le(0), NONE)),
        case("0 - 1 <= p at 5", &down, [5, 0, 0, 0], run1(le(0), NONE)),
        case(
            "standing <= 0, 0 - 1 <= 0",
            &rows::at_once(),
            [0, 0, 0, 0],
            run1(le(0), NONE),
        ),
        case(
            "standing <= 0, 0 - 1 < 0",
            &rows::never(),
            [0, 0, 0, 0],
            Void,
        ),
    ]
}

/// Sheets at which a wrong turn shows: w is the first wait and x the last one.
fn wrong_turns() -> Vec<Case> {
    // w from 3 to 5, x up to 2: clock 1 is w + x, clock 2 is x.
    let closed = run([
        [le(0), le(-3), le(0)],
        [le(7), le(0), le(5)],
        [le(2), le(-3), le(0)],
    ]);
    let open = run([
        [le(0), le(-3), le(0)],
        [lt(7), le(0), lt(5)],
        [le(2), le(-3), le(0)],
    ]);
    // w from 4 to 6, any x.
    let kept = run([
        [le(0), le(-4), le(0)],
        [NONE, le(0), le(6)],
        [NONE, le(-4), le(0)],
    ]);
    // w up to 4, y between, x from 1 in two stays, y + x up to 5: clock 1 is y + x, 2 is w + y + x,
    // 3 is x.
    let pushed = run([
        [le(0), le(-1), le(-1), le(-1)],
        [le(5), le(0), le(0), le(4)],
        [le(9), le(4), le(0), le(8)],
        [le(5), le(0), le(0), le(0)],
    ]);
    let zeros = [0, 0, 0, 0];
    vec![
        case(
            "two clocks",
            &rows::two_clocks(at_most(1, 0, 5, [0; 4])),
            zeros,
            closed,
        ),
        case(
            "two clocks, <",
            &rows::two_clocks(below(1, 0, 5, [0; 4])),
            zeros,
            open,
        ),
        case("a wait keeps differences", &rows::wait_keeps(), zeros, kept),
        case(
            "a limit reaches all entries",
            &rows::three_clocks(),
            zeros,
            pushed,
        ),
    ]
}

/// Files that are refused, whatever the numbers.
fn refused_files() -> Vec<Case> {
    let a = writer::file(&sheet_a());
    let up_to = |highest| writer::file(&a_with(|s| s.parameters[0] = range(0, highest)));
    let (whole, wide) = (up_to(63), up_to(64));
    let long = writer::file(&a_with(|s| {
        s.transitions[0].to = 0;
        s.route = vec![0; 33];
    }));
    let most = writer::file(&rows::a_around(32));
    let apart = writer::file(&rows::a_apart());
    let empty = writer::assemble(1, &Default::default());
    let far = [i64::MIN, i64::MAX, 1, 0];
    vec![
        file_case("range 0..63", whole, [63, 0, 0, 0], run1(le(-3), NONE)),
        file_case("range 0..64", wide.clone(), [0, 0, 0, 0], Refused(4, 25)),
        file_case("range 0..64, far numbers", wide, far, Refused(4, 25)),
        file_case("no byte", vec![], [0, 0, 0, 0], Refused(2, 0)),
        file_case("21 bytes", a[..21].to_vec(), far, Refused(2, 0)),
        file_case("4,097 bytes", vec![1; 4097], far, Refused(2, 0)),
        file_case("22 bytes, lengths 0", empty, far, Refused(4, 22)),
        file_case("22 bytes of A", a[..22].to_vec(), far, Refused(3, 5)),
        file_case("61 bytes of A", a[..61].to_vec(), far, Refused(3, 20)),
        file_case("route of 33", long, far, Refused(4, 60)),
        file_case("route of 32", most, [4, 0, 0, 0], run1(le(0), le(4))),
        file_case("a move from elsewhere", apart, far, Refused(5, 62)),
    ]
}

/// Numbers that are no valuation.
fn refused_numbers() -> Vec<Case> {
    let a = sheet_a();
    let bare = rows::no_limits();
    let mut three = rows::one_stay(&[range(-1, 1), range(0, 0), range(-1000, -937)], &[]);
    three.clocks = 4;
    let free = run([
        [le(0); 5],
        [NONE, le(0), le(0), le(0), le(0)],
        [NONE, le(0), le(0), le(0), le(0)],
        [NONE, le(0), le(0), le(0), le(0)],
        [NONE, le(0), le(0), le(0), le(0)],
    ]);
    let (low, high) = (i64::MIN, i64::MAX);
    vec![
        case("A at -1", &a, [-1, 0, 0, 0], Refused(6, 0)),
        case("A at 11", &a, [11, 0, 0, 0], Refused(6, 0)),
        case("A at -2^63", &a, [low, 0, 0, 0], Refused(6, 0)),
        case("A at 2^63 - 1", &a, [high, 0, 0, 0], Refused(6, 0)),
        case("A at 65,539", &a, [65539, 0, 0, 0], Refused(6, 0)),
        case("A at 2^32 + 3", &a, [(1 << 32) + 3, 0, 0, 0], Refused(6, 0)),
        case("A with q 1", &a, [3, 1, 0, 0], Refused(6, 1)),
        case("A with q -2^63", &a, [3, low, 0, 0], Refused(6, 1)),
        case("A with r -1", &a, [3, 0, -1, 0], Refused(6, 2)),
        case("A with r 2^63 - 1", &a, [3, 0, high, 0], Refused(6, 2)),
        case("A with q 256 and r 1", &a, [3, 256, 1, 0], Refused(6, 1)),
        case("A, all wrong", &a, [low, low, high, 0], Refused(6, 0)),
        case("no parameter, p 1", &bare, [1, 0, 0, 0], Refused(6, 0)),
        case("no parameter, r 1", &bare, [0, 0, 1, 0], Refused(6, 2)),
        case("three parameters", &three, [1, 0, -937, 0], free),
        case("the third past it", &three, [1, 0, -936, 0], Refused(6, 2)),
        case("the third 0", &three, [1, 0, 0, 0], Refused(6, 2)),
        case(
            "the second past it",
            &three,
            [1, -1, -936, 0],
            Refused(6, 1),
        ),
        case("the first past it", &three, [-2, 1, 0, 0], Refused(6, 0)),
    ]
}

#[cfg(test)]
mod tests {
    use super::*;

    /// Sweep gives the results that are written here.
    #[test]
    fn results_are_the_papers() {
        for case in cases() {
            assert!(case.is_right(), "{}", case.name);
        }
    }
}
