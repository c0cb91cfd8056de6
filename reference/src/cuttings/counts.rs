//! Paper 02, request (j): the tests of one guard on one zone, with results written by hand.
//!
//! The guards that are tried stand at a transition 0 that no route makes (`beside`), so that the zones of a
//! sheet are those of the rest of it. Invariants of location 0 are put to the zones too, before those guards.
//!
//! The count of a zone that is listed rests on what is none, and on rule (2): 1 for rule (1) if (j, i) is a
//! bound, 1 for rule (2) if (i, j) is one, and then, unless the guard is not tighter, 1 for each (k, l) such
//! that (k, i), (j, l) and (k, l) are bounds. So the zones that one guard lists of one zone have two different
//! counts at most.

use super::beside::beside;
use super::edges::{at_moves, rising};
use super::{case, Case, Left, Reply};
use crate::bound::Expr;
use crate::rows::p_then_q;
use crate::samples::{along, at_most, below, range};
use crate::sheet::{Guard, Parameter, Sheet, MOST_GUARDS};
use Left::{Refused, Tests};

/// The counts where every entry is a bound and the guard is tighter, for 1 to 4 clocks: (w + 1)^2 + 2.
const CEILINGS: [usize; 4] = [6, 11, 18, 27];

/// 1 to 4 clocks in words.
const CLOCKS: [&str; 4] = ["one clock", "two clocks", "three clocks", "four clocks"];

/// All cases.
pub fn cases() -> Vec<Case> {
    let mut list = ceilings();
    list.extend(without_bounds());
    list.extend(one_clock());
    list.extend(two_clocks());
    list.push(two_zones());
    list.extend(inequalities());
    list.extend(zones());
    list
}

/// What a guard leaves: zones with those inequalities more and those counts.
fn left(zones: &[(&[Expr], usize)]) -> Left {
    let one = |&(added, tests): &(&[Expr], usize)| (added.to_vec(), tests);
    Left::Zones(zones.iter().map(one).collect())
}

/// A guard that leaves the zone as one zone, with that count.
fn whole(tests: usize) -> Left {
    left(&[(&[], tests)])
}

/// A guard that cuts the zone.
fn nothing() -> Left {
    left(&[])
}

/// A sheet with one zone: what the invariants of location 0 leave of it, and guards with what they leave.
fn tried(name: &str, sheet: Sheet, invariants: &[Left], guards: Vec<(Guard, Left)>) -> Case {
    let (guards, others): (Vec<Guard>, Vec<Left>) = guards.into_iter().unzip();
    let result = [invariants, &others].concat();
    case(name, &beside(sheet, &guards), Reply::Left(result))
}

/// Clock 1 at most a number.
fn upper(c: i16) -> Guard {
    at_most(1, 0, c, [0; 4])
}

/// Clock 1 below a number.
fn before(c: i16) -> Guard {
    below(1, 0, c, [0; 4])
}

/// Clock 1 at least a number.
fn lower(c: i16) -> Guard {
    at_most(0, 1, -c, [0; 4])
}

/// Clock 1 above a number.
fn after(c: i16) -> Guard {
    below(0, 1, -c, [0; 4])
}

/// One location with those invariants, and an empty route.
fn one_stay(parameters: &[Parameter], clocks: u8, invariants: &[Guard]) -> Sheet {
    along(parameters, clocks, &[invariants.to_vec()], &[0], &[])
}

/// Clock 1 is at most 10, and then the last clock at most p: every entry is asked where p is below 10, and
/// rules (1) and (2) alone elsewhere. The invariant itself is not tighter.
fn ceilings() -> Vec<Case> {
    let one = |((clocks, words), ceiling)| {
        let by_p = left(&[(&[[9, -1, 0, 0, 0]], ceiling), (&[[-10, 1, 0, 0, 0]], 2)]);
        tried(
            &format!("at most p, {words} at most 10"),
            one_stay(&[range(0, 20)], clocks, &[upper(10)]),
            &[whole(2)],
            vec![(at_most(clocks, 0, 0, [1, 0, 0, 0]), by_p)],
        )
    };
    (1..).zip(CLOCKS).zip(CEILINGS).map(one).collect()
}

/// Clocks without an upper bound, and then the last one at most p: rule (2) and entries (k, 0) have no
/// test. At p or more: rule (1) has none, and of the entries (0, l) are asked, l being 1 or more.
fn without_bounds() -> Vec<Case> {
    let one = |((clocks, words), (upper, lower))| {
        let p_or_more = left(&[(&[[-1, 1, 0, 0, 0]], lower), (&[[0, -1, 0, 0, 0]], 1)]);
        tried(
            &format!("at most p, and p or more, {words} without a bound"),
            one_stay(&[range(0, 20)], clocks, &[]),
            &[],
            vec![
                (at_most(clocks, 0, 0, [1, 0, 0, 0]), whole(upper)),
                (at_most(0, clocks, 0, [-1, 0, 0, 0]), p_or_more),
            ],
        )
    };
    let counts = [(4, 2), (8, 3), (14, 4), (22, 5)];
    let mut list: Vec<Case> = (1..).zip(CLOCKS).zip(counts).map(one).collect();
    let from_zero = left(&[(&[[0, 1, 0, 0, 0]], 4)]);
    list.push(tried(
        "at most p, which is below 0 at first",
        one_stay(&[range(-5, 20)], 1, &[]),
        &[],
        vec![(at_most(1, 0, 0, [1, 0, 0, 0]), from_zero)],
    ));
    list
}

/// One clock from 3 on, with those invariants at the end.
fn from_three(invariants: &[Guard]) -> Sheet {
    let stays = [vec![], invariants.to_vec()];
    along(&[], 1, &stays, &[0, 1], &[(0, vec![lower(3)])])
}

/// One clock from 3 on, at most 10 or without an upper bound: guards that are just not tighter, just
/// tighter, those that just cut it, and those that just do not.
fn one_clock() -> Vec<Case> {
    let to_ten = || from_three(&[upper(10)]);
    let tighter = vec![
        (upper(10), whole(2)),
        (upper(11), whole(2)),
        (lower(3), whole(2)),
        (lower(2), whole(2)),
        (before(10), whole(6)),
        (after(3), whole(6)),
    ];
    let cutting = vec![
        (upper(2), nothing()),
        (before(3), nothing()),
        (lower(11), nothing()),
        (after(10), nothing()),
        (upper(3), whole(6)),
        (lower(10), whole(6)),
    ];
    let on = vec![
        (lower(3), whole(1)),
        (lower(2), whole(1)),
        (after(3), whole(2)),
        (upper(2), nothing()),
        (before(3), nothing()),
        (upper(3), whole(4)),
    ];
    vec![
        tried("from 3 to 10, tighter and not", to_ten(), &[], tighter),
        tried("from 3 to 10, cut and not", to_ten(), &[], cutting),
        tried("from 3 on", from_three(&[]), &[], on),
    ]
}

/// Two clocks, the second being reset by a transition with those guards, and then those invariants.
fn second_reset(p: Parameter, guards: &[Guard], invariants: &[Guard]) -> Sheet {
    let stays = [vec![], invariants.to_vec()];
    along(&[p], 2, &stays, &[0, 1], &[(0b10, guards.to_vec())])
}

/// Two clocks, the second being reset within 5 minutes, with clock 1 at most 20; and reset at any time,
/// without an upper bound, so that (1, 2) is none as well.
fn two_clocks() -> Vec<Case> {
    let at_most_p = |clock| at_most(clock, 0, 0, [1, 0, 0, 0]);
    let p_or_more = |clock| at_most(0, clock, 0, [-1, 0, 0, 0]);
    // against 20 by rule (2), and against 15 for (1, 0)
    let second_at_most_p = left(&[
        (&[[19, -1, 0, 0, 0], [14, -1, 0, 0, 0]], 11),
        (&[[19, -1, 0, 0, 0], [-15, 1, 0, 0, 0]], 11),
        (&[[-20, 1, 0, 0, 0]], 2),
    ]);
    // cut above 20, against 0 by rule (2), and against 5 for (0, 2)
    let to_20 = [20, -1, 0, 0, 0];
    let first_p_or_more = left(&[
        (&[to_20, [-1, 1, 0, 0, 0], [-6, 1, 0, 0, 0]], 11),
        (&[to_20, [-1, 1, 0, 0, 0], [5, -1, 0, 0, 0]], 11),
        (&[to_20, [0, -1, 0, 0, 0]], 2),
    ]);
    let or_one = |tests| left(&[(&[[-1, 1, 0, 0, 0]], tests), (&[[0, -1, 0, 0, 0]], 1)]);
    vec![
        tried(
            "a reset within 5 minutes, clock 1 at most 20",
            second_reset(range(0, 25), &[upper(5)], &[upper(20)]),
            &[],
            vec![
                (at_most_p(2), second_at_most_p),
                (p_or_more(1), first_p_or_more),
            ],
        ),
        tried(
            "a reset at any time, no upper bound",
            second_reset(range(0, 9), &[], &[]),
            &[],
            vec![
                (at_most_p(1), whole(7)),
                (at_most_p(2), whole(6)),
                (p_or_more(1), or_one(2)),
                (p_or_more(2), or_one(3)),
            ],
        ),
    ]
}

/// The two zones of at most p, then at most q: both invariants and then at most 3, for the one zone and then
/// for the other.
fn two_zones() -> Case {
    let mut result = Vec::new();
    for [from_four, to_three] in [
        [[-4, 0, 1, 0, 0], [3, 0, -1, 0, 0]],
        [[-4, 1, 0, 0, 0], [3, -1, 0, 0, 0]],
    ] {
        let three = left(&[(&[from_four], 6), (&[to_three], 2)]);
        result.extend([whole(2), whole(2), three]);
    }
    let sheet = beside(p_then_q(), &[upper(3)]);
    case("at most 3, two zones", &sheet, Reply::Left(result))
}

/// Zones with 24 inequalities and with one or two less: refusal 8 at rules (1) and (2), after a part that is
/// cut, and after a zone that is listed.
fn inequalities() -> Vec<Case> {
    let up = [at_most(1, 0, 0, [1, 0, 0, 0])];
    let shaved = |last: i16| at_moves(&[range(0, 63)], &up, &rising(1..=last), MOST_GUARDS);
    let after_24 = vec![
        (lower(30), Refused(8)),
        (upper(40), Refused(8)),
        (lower(24), whole(2)),
        (upper(64), whole(2)),
        (lower(64), nothing()),
        (upper(23), nothing()),
    ];
    let upper_40 = left(&[(&[[-41, 1, 0, 0, 0]], 6), (&[[40, -1, 0, 0, 0]], 2)]);
    let after_23 = vec![
        (lower(30), left(&[(&[[-30, 1, 0, 0, 0]], 6)])),
        (upper(40), upper_40),
        (at_most(0, 1, -60, [1, 0, 0, 0]), Refused(8)),
    ];
    let q_from_15 = [-15, 0, 1, 0, 0];
    let three = left(&[
        (&[[14, 0, -1, 0, 0]], 11),
        (&[q_from_15, [16, 0, -1, 0, 0]], 11),
        (&[q_from_15, [-17, 0, 1, 0, 0]], 11),
    ]);
    let by_q = at_most(2, 0, 0, [0, 1, 0, 0]);
    let [three, refused] = [three, Refused(8)].map(|left| vec![(by_q, left)]);
    let again = shaved_and_reset;
    let up = [whole(2)];
    vec![
        tried("24 inequalities", shaved(24), &up, after_24),
        tried("23 inequalities", shaved(23), &up, after_23),
        tried("22 inequalities, three zones", again(22), &up, three),
        tried("23, refused after a zone", again(23), &up, refused),
    ]
}

/// Clock 1 at most p, and that many inequalities p - k >= 0; then both clocks are reset, clock 2 again
/// within 5 minutes, and clock 1 ends from 17 to 20. Clock 2 at most q, from 12 to 19, is compared with 15 for
/// (1, 0) and then with 17 for (2, 1).
fn shaved_and_reset(last: i16) -> Sheet {
    let up = vec![at_most(1, 0, 0, [1, 0, 0, 0])];
    let guards = rising(1..=last);
    let shaves = guards.chunks(MOST_GUARDS).map(|list| (0, list.to_vec()));
    let mut moves: Vec<(u8, Vec<Guard>)> = shaves.collect();
    let mut path = vec![0; moves.len() + 1];
    moves.extend([(0b11, vec![]), (0b10, vec![upper(5)]), (0, vec![lower(17)])]);
    path.extend([1, 2, 3]);
    let stays = [up, vec![], vec![], vec![upper(20)]];
    along(&[range(0, 63), range(12, 19)], 2, &stays, &path, &moves)
}

/// One guard and one zone of four clocks: 32 zones, each with 27 tests, and a 33rd; and five zones.
fn zones() -> Vec<Case> {
    let [by_r, fixed] = [23, 0].map(|r| at_most(1, 0, 150, [0, 0, r, 0]));
    let sixteen = || Tests(vec![27; 16]);
    // against 196 by rule (2), 145 + 10p for (1, 2), and 145 + 10q for (1, 3)
    let late = at_most(1, 0, 194, [0, 0, 1, 0]);
    let [r_to_1, r_from_2] = [[1, 0, 0, -1, 0], [-2, 0, 0, 1, 0]];
    let [p_up, p_down] = [[-50, 10, 0, -1, 0], [49, -10, 0, 1, 0]];
    let [q_up, q_down] = [[-50, 0, 10, -1, 0], [49, 0, -10, 1, 0]];
    let five = left(&[
        (&[r_to_1, p_up, q_up], 27),
        (&[r_to_1, p_up, q_down], 27),
        (&[r_to_1, p_down, q_up], 27),
        (&[r_to_1, p_down, q_down], 27),
        (&[r_from_2], 2),
    ]);
    let taken = vec![(by_r, Tests(vec![27; 32])), (fixed, sixteen())];
    let refused = vec![(by_r, Refused(7)), (fixed, sixteen()), (late, five)];
    vec![
        tried("32 zones of one", crossing(1), &[], taken),
        tried("a 33rd zone of one", crossing(2), &[], refused),
    ]
}

/// One zone of four clocks, of which clocks 2, 3 and 4 are reset one after the other. No guard on the way
/// to it is open, so that it has no inequality; every entry is a bound.
///
/// Clock 1 at most e is compared with 196 by rule (2), for clock 2 with 145, 135 and 125, each plus 10p, by
/// entries (1, 2), (3, 2) and (4, 2), for clock 3 with the same plus 10q by (1, 3), (2, 3) and (4, 3), and
/// for clock 4 with 160 by (1, 4). With e = 150 that is four parts by p and four by q. With e = 150 + 23r it
/// is these for r = 0, other ones for r = 1, and for r = 2 one part that is not tighter.
fn crossing(highest_r: i16) -> Sheet {
    // a clock's numbers at most and at least
    let within = |clock, most, least: i16| {
        [
            at_most(clock, 0, most, [0; 4]),
            at_most(0, clock, -least, [0; 4]),
        ]
    };
    let third = [within(1, 125, 60), within(2, 115, 5)];
    let fourth = [within(1, 150, 110), within(2, 130, 65), within(3, 70, 5)];
    let lows = vec![
        lower(140),
        at_most(0, 2, -80, [-10, 0, 0, 0]),
        at_most(0, 3, -20, [0, -10, 0, 0]),
        at_most(0, 4, -10, [0; 4]),
    ];
    let moves = [
        (0b0010, vec![upper(65)]),
        (0b0100, third.concat()),
        (0b1000, fourth.concat()),
        (0, lows),
    ];
    let stays = [vec![], vec![], vec![], vec![], vec![upper(196)]];
    let parameters = [range(0, 5), range(0, 5), range(0, highest_r)];
    along(&parameters, 4, &stays, &[0, 1, 2, 3, 4], &moves)
}

#[cfg(test)]
mod tests {
    use super::*;
    use crate::sheet::{read, Refusal};
    use crate::windows::{cut_one, windows, Limits};

    /// A refusal's place is the visit.
    #[test]
    fn refusals_have_the_visit() {
        for (name, number) in [("a 33rd zone of one", 7), ("24 inequalities", 8)] {
            let case = cases().into_iter().find(|case| case.name == name).unwrap();
            let sheet = read(&case.file).unwrap();
            let zone = &windows(&case.file, case.places).unwrap().zones[0];
            let guard = &sheet.transitions[0].guards[0];
            for place in [0, 1, 32] {
                let refusal = Refusal { number, place };
                let outcome = cut_one(&sheet, zone, guard, place, Limits::PAPER);
                assert_eq!(outcome, Err(refusal), "{name}");
            }
        }
    }
}
