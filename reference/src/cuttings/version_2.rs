//! Sheets of version 2 (paper 02, request (i)), with results written by hand, and families of random ones.

use super::beside::with_guards_beside;
use super::drawn::{many, with_table};
use super::firsts::one_zone;
use super::numbers::chain;
use super::{arrivals, counts, edges, firsts, numbers, paper};
use super::{case, file_case, record, record_of, zones, Case, Left, Record, Reply};
use crate::bound::Expr;
use crate::family::Family;
use crate::planned::{crossed, planned, random_shape, Shape};
use crate::random::Random;
use crate::rows::one_stay;
use crate::samples::{
    at_most, biggest_sheet, c_with, in_version_2, of_widths, random_sheet, range, sheet_a, sheet_c,
    Size,
};
use crate::sheet::{read, Sheet, MOST_CLOCKS, MOST_GUARDS, MOST_PARAMETERS, MOST_ROUTE};
use crate::vectors::{damage, version_2};
use crate::windows::PLACES;
use crate::writer;
use Reply::{Counts, Entries, Refused};

/// The names of the families whose records are the cases, and the cases of version 1 in the last parameters.
pub const BY_HAND: &str = "version 2: results written by hand";
pub const SHIFTED: &str = "version 2: sheets of version 1 in the last parameters";

/// All the families, in the order in which they are stored.
pub fn families(random: &mut Random) -> Vec<Family<Record>> {
    let by_hand = |name, cases: Vec<Case>| Family {
        name,
        records: cases.iter().map(Case::record).collect(),
    };
    let mut list = vec![by_hand(BY_HAND, cases()), by_hand(SHIFTED, shifted_cases())];
    list.extend(drawn(random));
    list
}

/// The families of random sheets.
pub fn drawn(random: &mut Random) -> Vec<Family<Record>> {
    let mut list = Vec::new();
    let mut add = |name, records| list.push(Family { name, records });
    add("version 2: one to four parameters", crossings(random));
    add("version 2: routes of 0 to 32 moves", routes(random));
    add("version 2: guards everywhere", crowded(random));
    add("version 2: ranges anywhere", anywhere(random));
    add("version 2: random sheets", loose(random));
    add("version 2: guards beside the route", beside(random));
    add("version 2: each rule at its limit", at_limits(random));
    add("version 2: damaged files", damaged(random));
    list
}

/// All cases.
pub fn cases() -> Vec<Case> {
    let mut list = vec![
        case(
            "A in version 2",
            &in_version_2(sheet_a()),
            zones(&[([3, 0, 0, 0], &[[-3, 1, 0, 0, 0]])], 8, 3),
        ),
        zones_of_c(),
        least_of_four(),
        largest_number(),
    ];
    list.extend(first_of_four());
    list.extend(products());
    list
}

/// Sheet C: at most e = -20 + p - 2q + 3r + 4s, which is not negative at the start, and at least 3 + s, which is no
/// more than e, and above 0 or not.
fn zones_of_c() -> Case {
    let [e, both] = [[-20, 1, -2, 3, 4], [-23, 1, -2, 3, 3]];
    let [above, not_above] = [[2, 0, 0, 0, 1], [-3, 0, 0, 0, -1]];
    let list: [(_, &[Expr]); 2] = [
        ([0, -5, 7, -2], &[e, both, above]),
        ([1, -5, 7, -3], &[e, both, not_above]),
    ];
    case("C", &sheet_c(), zones(&list, 220, 264))
}

/// At most p, q, r and s, from 0 to 5: a zone for each way to compare them.
fn least_of_four() -> Case {
    let up = [[1, 0, 0, 0], [0, 1, 0, 0], [0, 0, 1, 0], [0, 0, 0, 1]].map(|e| at_most(1, 0, 0, e));
    // the one parameter is below the other, or not
    let below = |i: usize, j: usize| {
        let mut e = [-1, 0, 0, 0, 0];
        (e[i], e[j]) = (-1, 1);
        e
    };
    let from = |i: usize, j: usize| {
        let mut e = [0; 5];
        (e[i], e[j]) = (1, -1);
        e
    };
    let [p, q, r, s] = [1, 2, 3, 4];
    let list: [(_, &[Expr]); 8] = [
        ([3, 2, 1, 0], &[below(q, p), below(r, q), below(s, r)]),
        ([2, 1, 0, 0], &[below(q, p), below(r, q), from(s, r)]),
        ([2, 1, 1, 0], &[below(q, p), from(r, q), below(s, q)]),
        ([1, 0, 0, 0], &[below(q, p), from(r, q), from(s, q)]),
        ([2, 2, 1, 0], &[from(q, p), below(r, p), below(s, r)]),
        ([1, 1, 0, 0], &[from(q, p), below(r, p), from(s, r)]),
        ([1, 1, 1, 0], &[from(q, p), from(r, p), below(s, p)]),
        ([0, 0, 0, 0], &[from(q, p), from(r, p), from(s, p)]),
    ];
    let sheet = one_stay(&[range(0, 5); 4], &up);
    case("<= p, <= q, <= r, <= s", &sheet, zones(&list, 1296, 0))
}

/// 33 stays of at most 1,000 (1 + p + q + r + s).
fn largest_number() -> Case {
    let stay = at_most(2, 0, 1000, [1000; 4]);
    let sheet = chain(&[range(0, 1); 4], stay, &[]);
    let result = Entries(vec![(1, 0, [33_000; 5]), (1, 2, [32_000; 5])]);
    case("33,000 five times", &sheet, result)
}

/// One zone whose first valuation has to be looked for.
fn first_of_four() -> Vec<Case> {
    vec![
        one_zone(
            "p + q + r + s >= 10 in 0..3",
            &[range(0, 3); 4],
            &[[-10, 1, 1, 1, 1]],
            [1, 3, 3, 3],
            15,
        ),
        one_zone(
            "6p + 10q + 15r + 21s = 97",
            &[range(0, 7); 4],
            &[[-97, 6, 10, 15, 21], [97, -6, -10, -15, -21]],
            [0, 1, 3, 2],
            14,
        ),
        one_zone(
            "s from p + q + 3 to r + 2",
            &[range(-4, 4), range(-3, 3), range(-2, 2), range(-6, 6)],
            &[[-3, -1, -1, 0, 1], [2, 0, 0, 1, -1]],
            [-4, -3, -2, -4],
            455,
        ),
        one_zone(
            "the last of 262,144",
            &[range(0, 7), range(0, 31), range(0, 15), range(0, 63)],
            &[[-116, 1, 1, 1, 1]],
            [7, 31, 15, 63],
            1,
        ),
    ]
}

/// Refusal 16: after 1 and 4, before 5; and the most valuations that are not refused.
fn products() -> Vec<Case> {
    let whole = |first| zones(&[(first, &[])], 262_144, 0);
    let mut far = of_widths(&[64, 64, 64, 1]);
    far.parameters = vec![
        range(-1000, -937),
        range(937, 1000),
        range(0, 63),
        range(9, 9),
    ];
    let past = of_widths(&[64, 64, 64, 2]);
    let mut unlinked = c_with(|s| s.parameters = vec![range(0, 40); 4]);
    unlinked.transitions[0].from = 1;
    let mut wrong = unlinked.clone();
    wrong.route = vec![1];
    let small = writer::file(&past);
    vec![
        case("64, 64, 64 and 1", &far, whole([-1000, 937, 0, 9])),
        case("64, 64, 64 and 2", &past, Refused(16, 0)),
        case(
            "57, 2, 50 and 46",
            &of_widths(&[57, 2, 50, 46]),
            Refused(16, 0),
        ),
        case(
            "47, 11, 39 and 13",
            &of_widths(&[47, 11, 39, 13]),
            Counts(1, 262_119, 0),
        ),
        file_case("16 and 1", small, PLACES - 1, Refused(1, 0)),
        case("16 and 5", &unlinked, Refused(16, 0)),
        case("16, 5 and 4", &wrong, Refused(4, 77)),
    ]
}

/// The sheets of version 1 that have results written by hand, in version 2 with four parameters, of which theirs are
/// the last: the same results in these.
pub fn shifted_cases() -> Vec<Case> {
    let lists = [
        paper::cases(),
        edges::cases(),
        firsts::cases(),
        arrivals::cases(),
        counts::cases(),
        numbers::cases(),
    ];
    let mut cases = Vec::new();
    for case in lists.into_iter().flatten() {
        if let Ok(sheet) = read(&case.file) {
            let by = MOST_PARAMETERS - sheet.parameters.len();
            cases.push(Case {
                file: writer::file(&shifted(sheet, by)),
                result: shifted_reply(case.result, by),
                ..case
            });
        }
    }
    cases
}

/// The sheet with that many parameters more, before its own, which are 0.
fn shifted(mut sheet: Sheet, by: usize) -> Sheet {
    let zeros = vec![range(0, 0); by];
    sheet.parameters.splice(0..0, zeros);
    for guard in sheet.guards_mut().flatten() {
        guard.coefficients.rotate_right(by);
    }
    in_version_2(sheet)
}

/// The result with the numbers of parameters behind that many zeros.
fn shifted_reply(reply: Reply, by: usize) -> Reply {
    let expr = |mut e: Expr| {
        e[1..].rotate_right(by);
        e
    };
    let left = |left: Left| match left {
        Left::Zones(list) => {
            let one =
                |(added, tests): (Vec<Expr>, usize)| (added.into_iter().map(expr).collect(), tests);
            Left::Zones(list.into_iter().map(one).collect())
        }
        other => other,
    };
    match reply {
        Reply::Zones(mut list, kept, cut) => {
            for (first, inequalities) in &mut list {
                first.rotate_right(by);
                inequalities.iter_mut().for_each(|e| *e = expr(*e));
            }
            Reply::Zones(list, kept, cut)
        }
        Entries(list) => Entries(list.into_iter().map(|(i, j, e)| (i, j, expr(e))).collect()),
        Reply::Left(list) => Reply::Left(list.into_iter().map(left).collect()),
        other => other,
    }
}

/// A random shape of version 2 with that many parameters.
fn shape_of(
    random: &mut Random,
    parameters: usize,
    moves: usize,
    guards: usize,
    width: i16,
) -> Shape {
    Shape {
        version: 2,
        parameters,
        ..random_shape(random, moves, guards, width)
    }
}

/// Counts of parameters, most often four, with widths that leave few enough valuations to list them.
const WIDTHS: [(usize, i16); 6] = [(4, 4), (4, 5), (4, 3), (3, 7), (2, 16), (1, 63)];

/// Sheets whose bounds cross.
fn crossings(random: &mut Random) -> Vec<Record> {
    many(90, |n| {
        let (parameters, width) = WIDTHS[n % 6];
        let shape = shape_of(random, parameters, 7, 2 + n % 5, width);
        let sheet = crossed(random, shape).sheet;
        with_table(random, &sheet)
    })
}

/// Sheets with routes of each length.
fn routes(random: &mut Random) -> Vec<Record> {
    many(MOST_ROUTE + 1, |n| {
        let mut shape = shape_of(random, 4, 0, 3, 3);
        shape.moves = n;
        let sheet = crossed(random, shape).sheet;
        with_table(random, &sheet)
    })
}

/// Sheets with up to six guards at each place.
fn crowded(random: &mut Random) -> Vec<Record> {
    many(24, |n| {
        let moves = [6, 14, MOST_ROUTE][n % 3];
        let shape = shape_of(random, 4, moves, MOST_GUARDS, 4);
        let sheet = crossed(random, shape).sheet;
        with_table(random, &sheet)
    })
}

/// Sheets around a run, with 0 to 4 parameters and ranges up to the ends of what is allowed.
fn anywhere(random: &mut Random) -> Vec<Record> {
    many(25, |n| {
        let shape = shape_of(random, n % 5, 7, 1 + n % 6, [0, 63, 20, 9, 5][n % 5]);
        let sheet = planned(random, shape).sheet;
        with_table(random, &sheet)
    })
}

/// Any good sheets, their ranges made narrower. Nothing is asked of half of the starts.
fn loose(random: &mut Random) -> Vec<Record> {
    many(24, |n| {
        let size = [Size::SMALL, Size::SMALL, Size::ROUTED, Size::MIDDLE][n % 4];
        let mut sheet = random_sheet(random, 2, size);
        for p in &mut sheet.parameters {
            p.highest = p.highest.min(p.lowest + 5);
        }
        if random.once_in(2) {
            sheet.locations[0].invariants.clear();
        }
        with_table(random, &sheet)
    })
}

/// Random sheets with guards beside the route.
fn beside(random: &mut Random) -> Vec<Record> {
    many(16, |n| {
        with_guards_beside(random, |random| {
            let mut shape = shape_of(random, 4, 6, 2 + n % 3, 4);
            shape.clocks = 1 + (n % MOST_CLOCKS) as u8;
            shape
        })
    })
}

/// The cases at the limits of the file's rules that are not refused by 3 or 4, and one of the biggest sheets.
fn at_limits(random: &mut Random) -> Vec<Record> {
    let mut list = Vec::new();
    for case in version_2::cases() {
        if read(&case.file).map_or_else(|refusal| refusal.number > 4, |_| true) {
            list.push(record_of(case.file, PLACES));
        }
    }
    let mut sheet = biggest_sheet(random, 2, 4, 4);
    for p in &mut sheet.parameters {
        p.highest = p.lowest + 2;
    }
    list.push(record(&sheet));
    list
}

/// Damaged files of every kind; some are still good.
fn damaged(random: &mut Random) -> Vec<Record> {
    let files = damage::every_kind(random, 2, [20, 3, 3, 10, 5, 12, 8]);
    let one = |file| record_of(file, PLACES);
    files.into_iter().map(one).collect()
}
