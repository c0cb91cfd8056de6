//! Sheets with the largest numbers that entries, sums and tests come to (paper 02, request (n)), with results
//! written by hand.
//!
//! It is proved that no number of an entry passes 33,000 in size, none of a sum 67,000, and none of a test
//! 100,001. Reached are 33,000, 65,000 and 65,001 along a route, and 67,000 and 66,001 by one more guard at its
//! end (`sizes`); larger tests were looked for on short routes and not found.
//!
//! - An entry is a path between two of the 34 instants that passes none twice, with at most 1,000 for a step.
//!   Upper guards lead from each instant to the next, and so (1, 0) comes to 33,000.
//! - A lower guard at the end of a stay has cut on arrival already. So along a route none leads away from the
//!   end of the last stay, entries other than (k, 0) come to 32,000, and a sum to twice that and a guard. One
//!   more lower guard adds (1, 0) twice.
//! - The largest tests compare a sum with (1, 1), which is zero.

use super::beside::beside;
use super::{case, zones, Case, Left, Reply};
use crate::bound::Expr;
use crate::rows::one_stay;
use crate::samples::{along, at_most, location, range};
use crate::sheet::{Guard, Parameter, Sheet, MOST_ROUTE};
use Reply::Entries;

/// All cases.
pub fn cases() -> Vec<Case> {
    let mut list = entries();
    list.extend(sixteen_bits());
    list.extend(inequalities());
    list.extend(sums());
    list.extend([1000, -1000].map(one_more));
    list.extend(starts_and_arrivals());
    list
}

/// Clock 1, which is never reset, beside clock 2, which each of 32 moves resets: that invariant at each stay, and
/// those guards at each move.
pub fn chain(parameters: &[Parameter], stay: Guard, leave: &[Guard]) -> Sheet {
    let moves = vec![(0b10, leave.to_vec()); MOST_ROUTE];
    let path = [0; MOST_ROUTE + 1];
    along(parameters, 2, &[vec![stay]], &path, &moves)
}

/// The chain with a last stay of its own.
fn ending(mut sheet: Sheet, last: &[Guard]) -> Sheet {
    sheet.transitions[MOST_ROUTE - 1].to = 1;
    sheet.locations.push(location(last));
    sheet
}

/// A clock at most an expression: the constant, and the coefficients of p, q and r.
fn upper(clock: u8, e: [i16; 4]) -> Guard {
    let [constant, p, q, r] = e;
    at_most(clock, 0, constant, [p, q, r, 0])
}

/// 0 less a clock at most such an expression.
fn lower(clock: u8, e: [i16; 4]) -> Guard {
    let [constant, p, q, r] = e;
    at_most(0, clock, constant, [p, q, r, 0])
}

/// Such an expression as it is found.
fn wide([constant, p, q, r]: [i64; 4]) -> Expr {
    [constant, p, q, r, 0]
}

/// Those entries of the only zone.
fn ends(list: &[(usize, usize, [i64; 4])]) -> Reply {
    Entries(list.iter().map(|&(i, j, e)| (i, j, wide(e))).collect())
}

/// Ranges in which 1 + p + q + r is above 0, in which it is 0 or below, and in which 1 - p + q - r is above 0.
const ABOVE: [Parameter; 3] = [range(0, 1); 3];
const NOT_ABOVE: [Parameter; 3] = [range(-2, -1), range(-1, 0), range(-1, 0)];
const TURNED: [Parameter; 3] = [range(-1, 0), range(0, 1), range(-1, 0)];

/// 33 stays: clock 1 ends with 33 times the numbers of each, 33,000 above and below zero; and with a lower guard
/// at each move, with 32 times those below.
fn entries() -> Vec<Case> {
    let one =
        |name: &str, parameters: &[Parameter], stay, leave, found: &[(usize, usize, [i64; 4])]| {
            let leave = Vec::from_iter(leave);
            case(name, &chain(parameters, stay, &leave), ends(found))
        };
    let [large, small, mixed] = [[1000; 4], [-1000; 4], [1000, -1000, 1000, -1000]];
    let signs = [33_000, -33_000, 33_000, -33_000];
    // 1,000 less 1,000p, where p is 1: each stay is of 0 minutes, and the guard is not tighter
    let at_once = [1000, -1000, 0, 0];
    // 2,000 for each wait, from below and from above
    let [least, most] = [[-1000, 0, -1000, 0], [1000, 0, 1000, 0]];
    vec![
        one(
            "33,000",
            &ABOVE,
            upper(2, large),
            None,
            &[(1, 0, [33_000; 4])],
        ),
        one(
            "-33,000",
            &NOT_ABOVE,
            upper(2, small),
            None,
            &[(1, 0, [-33_000; 4])],
        ),
        one(
            "33,000 and -33,000",
            &TURNED,
            upper(2, mixed),
            None,
            &[(1, 0, signs)],
        ),
        one(
            "33,000 at 0 minutes",
            &[range(1, 1)],
            upper(2, at_once),
            Some(lower(2, at_once)),
            &[(1, 0, [33_000, -33_000, 0, 0]), (0, 1, [0; 4])],
        ),
        one(
            "-32,000 below, 33,000 above",
            &[range(0, 1), range(1, 1)],
            upper(2, most),
            Some(lower(2, least)),
            &[
                (1, 0, [33_000, 0, 33_000, 0]),
                (0, 1, [-32_000, 0, -32_000, 0]),
                (1, 2, [32_000, 0, 32_000, 0]),
                (2, 1, [-32_000, 0, -32_000, 0]),
            ],
        ),
    ]
}

/// Entries at the ends of 16 bits: 32 stays, and a last one with the numbers that are missing.
fn sixteen_bits() -> Vec<Case> {
    let one = |name: &str, parameters: &[Parameter], each: [i16; 4], last, found| {
        let sheet = ending(chain(parameters, upper(2, each), &[]), &[upper(2, last)]);
        case(name, &sheet, ends(&[(1, 0, found)]))
    };
    let signs = [1000, -1000, 1000, -1000];
    let mixed = [32_767, -32_768, 32_768, -32_769];
    vec![
        one("32,767", &ABOVE, [1000; 4], [767; 4], [32_767; 4]),
        one("32,768", &ABOVE, [1000; 4], [768; 4], [32_768; 4]),
        one("-32,768", &NOT_ABOVE, [-1000; 4], [-768; 4], [-32_768; 4]),
        one("-32,769", &NOT_ABOVE, [-1000; 4], [-769; 4], [-32_769; 4]),
        one(
            "the ends of 16 bits",
            &TURNED,
            signs,
            [767, -768, 768, -769],
            mixed,
        ),
    ]
}

/// Inequalities with numbers past 33,000: after 33 stays of at most 1,000 minutes, 1,000q - 1,000 with q being 2,
/// clock 1 is at most 1,000p + 1,000, which is 33,000 or less. And sums of rule (1): at the last move it is at
/// least 1,000p, of 32,000.
fn inequalities() -> Vec<Case> {
    let each = upper(2, [-1000, 0, 1000, 0]);
    let late = |low| chain(&[range(low, low + 1), range(2, 2)], each, &[]);
    let by_p = ending(late(31), &[each, upper(1, [1000, 1000, 0, 0])]);
    let tighter = wide([-34_001, -1000, 33_000, 0]);
    let not_tighter = wide([34_000, 1000, -33_000, 0]);
    let parted = zones(
        &[([31, 2, 0, 0], &[tighter]), ([32, 2, 0, 0], &[not_tighter])],
        2,
        0,
    );
    let leaving = |low| {
        let mut sheet = late(low);
        sheet.transitions[MOST_ROUTE - 1].guards = vec![lower(1, [0, -1000, 0, 0])];
        sheet
    };
    let least = wide([-32_000, -1000, 32_000, 0]);
    let to_32 = zones(&[([32, 2, 0, 0], &[least])], 1, 1);
    vec![
        case("an inequality of -34,001", &by_p, parted),
        case("at least 32,000 of 32,000 and 33,000", &leaving(32), to_32),
        case("at least 33,000 of 32,000", &leaving(33), zones(&[], 0, 2)),
    ]
}

/// The largest sums, 65,000 and -65,000, and tests, 65,001 and 65,000.
///
/// Clock 1 is at least a number at the last move: rule (3) adds (1, 0), the guard, and (1, 0) once more.
///
/// In the others a stay is from 2 to 6 minutes, and the last two before a move (clock 3) are 10 or more together:
/// so the way from the move between them back to the start leads through the last move, and has 32 steps. Then
/// clock 2 is at least 6: for (1, 1) rule (3) adds 32 steps up, the guard, and those 32 steps down.
fn sums() -> Vec<Case> {
    // u is 1,000 and e -1,000 where p is -2, q and r are 1
    let fixed = [range(-2, -2), range(1, 1), range(1, 1)];
    let one = |u, e: [i16; 4]| {
        let mut sheet = chain(&fixed, upper(2, u), &[]);
        sheet.transitions[MOST_ROUTE - 1].guards = vec![lower(1, e)];
        let [all, last] = [u.map(|x| 33 * i64::from(x)), e.map(i64::from)];
        (sheet, ends(&[(1, 0, all), (0, 1, last)]))
    };
    let [above, above_ends] = [[1000; 4], [1000, 1000, 1000, -1000]];
    let [below, below_ends] = [[-1000, -1000, -1000, 1000], [-1000; 4]];
    let list = [
        ("sums of 65,000", one(above, above_ends)),
        ("sums of -65,000", one(below, below_ends)),
        ("tests of -65,001", there_and_back(1000)),
        ("tests of 65,000", there_and_back(-1000)),
    ];
    let named = |(name, (sheet, result))| case(name, &sheet, result);
    list.into_iter().map(named).collect()
}

/// The chain with stays from 2 to 6 minutes.
fn from_two_to_six(minutes: impl Fn(i16) -> [i16; 4]) -> Sheet {
    let parameters = [range(0, 0), range(2, 2), range(0, 0)];
    chain(&parameters, upper(2, minutes(6)), &[lower(2, minutes(-2))])
}

/// An even count of minutes with that constant and those coefficients of p and r, which are 0, and that of q,
/// which is 2, that makes it right.
fn in_minutes(number: i16) -> impl Fn(i16) -> [i16; 4] {
    move |x| [number, number, (x - number) / 2, number]
}

/// The sheet of the largest test along a route.
fn there_and_back(number: i16) -> (Sheet, Reply) {
    let minutes = in_minutes(number);
    let mut sheet = from_two_to_six(&minutes);
    sheet.clocks = 3;
    sheet.transitions[29].resets |= 0b100;
    sheet.transitions[MOST_ROUTE - 1].guards = vec![lower(3, minutes(-10)), lower(2, minutes(-6))];
    // steps that come to those minutes
    let steps = |count: i64, x: i64| {
        let n = i64::from(number);
        [count * n, count * n, (x - count * n) / 2, count * n]
    };
    let [up, down] = [steps(33, 6 * 33), steps(31, -10 - 2 * 30)];
    (sheet, ends(&[(1, 0, up), (0, 1, down)]))
}

/// One more guard at the end of the route: clock 1 at least 70, for which rule (3) adds 33 steps up, the guard, and
/// those steps once more; and clock 2 at least 4, with 33 steps up, the guard, and 32 steps down. The invariant
/// is not tighter.
fn one_more(number: i16) -> Case {
    let minutes = in_minutes(number);
    let mut sheet = from_two_to_six(&minutes);
    // one transition, so that there is place for one beside the route
    sheet.transitions.truncate(1);
    sheet.route.fill(0);
    let guards = [lower(1, minutes(-70)), lower(2, minutes(-4))];
    let left = [2, 11, 11].map(|tests| Left::Tests(vec![tests]));
    let name = format!("one more guard, numbers of {number}");
    case(&name, &beside(sheet, &guards), Reply::Left(left.to_vec()))
}

/// All of 1,000 and -1,000 at the start, where nothing has been waited, and on arrival: in p, q and r from -1 to 1
/// a sum of -1 comes 6 times, as 1 does, 0 comes 7 times, and -2 and -3 come 3 times and once.
fn starts_and_arrivals() -> Vec<Case> {
    let parameters = [range(-1, 1); 3];
    let [from_minus_1, to_minus_1, to_1] =
        [[1000; 4], [-1000; 4], [1000, -1000, -1000, -1000]].map(wide);
    let arriving = |resets| {
        let [leave, there] = [upper(1, [1000; 4]), upper(1, [1000, -1000, -1000, -1000])];
        let stays = [vec![], vec![there]];
        along(&parameters, 1, &stays, &[0, 1], &[(resets, vec![leave])])
    };
    let up = || zones(&[([-1, -1, 1, 0], &[from_minus_1])], 23, 4);
    let down = || zones(&[([-1, -1, -1, 0], &[to_minus_1])], 10, 17);
    // at most the second from a sum of 1 on, since the first is more
    let [above, not_above] = [[-1, 2000, 2000, 2000], [0, -2000, -2000, -2000]].map(wide);
    let parted = zones(
        &[
            ([-1, 1, 1, 0], &[from_minus_1, to_1, above]),
            ([-1, -1, 1, 0], &[from_minus_1, to_1, not_above]),
        ],
        19,
        8,
    );
    let whole = zones(&[([-1, -1, 1, 0], &[from_minus_1, to_1])], 19, 8);
    let start = |guard| one_stay(&parameters, &[guard]);
    vec![
        case("a start, at most 1,000", &start(upper(1, [1000; 4])), up()),
        case(
            "a start, at most -1,000",
            &start(upper(1, [-1000; 4])),
            down(),
        ),
        case("a start, -1,000 or more", &start(lower(1, [1000; 4])), up()),
        case(
            "a start, 1,000 or more",
            &start(lower(1, [-1000; 4])),
            down(),
        ),
        case("1,000, and 1,000 on arrival", &arriving(0), parted),
        case("1,000, and 1,000 after a reset", &arriving(1), whole),
    ]
}
