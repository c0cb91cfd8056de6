//! Standing limits at the start and on arrival, with results written by hand.

use super::{case, zones, Case};
use crate::arrivals::{
    after_five, at_three, back, green_early, green_late, green_whenever, green_within_p, start,
    two_there, within_five,
};
use crate::bound::Expr;
use crate::samples::{at_most, below};
use crate::valuations::Valuation;

/// p >= 0, and p at most -1.
const P_UP: Expr = [0, 1, 0, 0, 0];
const P_DOWN: Expr = [-1, -1, 0, 0, 0];

/// The only zone of a sheet without a parameter.
const WHOLE: (Valuation, &[Expr]) = ([0; 4], &[]);

/// All cases.
pub fn cases() -> Vec<Case> {
    let mut list = green();
    list.extend(starts());
    list.extend(after_resets());
    list.extend(strict());
    list.extend(parted());
    list
}

/// The green stage: who arrives early cannot wait it out.
fn green() -> Vec<Case> {
    let from_two = || zones(&[([2, 0, 0, 0], &[[-2, 1, 0, 0, 0]])], 3, 2);
    vec![
        case("green, early", &green_early(), zones(&[], 0, 1)),
        case("green, at 2 or later", &green_late(), zones(&[WHOLE], 1, 0)),
        case("green, no guard", &green_whenever(), zones(&[WHOLE], 1, 0)),
        case("green, within p", &green_within_p(), from_two()),
        case("green, then one more limit", &two_there(false), from_two()),
        case("green, after one more limit", &two_there(true), from_two()),
    ]
}

/// Starts that are forbidden, at all valuations and at some.
fn starts() -> Vec<Case> {
    let never = zones(&[], 0, 7);
    let from_zero = zones(&[([0; 4], &[P_UP])], 4, 3);
    let from_one = || zones(&[([1, 0, 0, 0], &[[-1, 1, 0, 0, 0]])], 3, 4);
    let starts = [
        ("1 or later", at_most(0, 1, -1, [0; 4]), never.clone()),
        ("after 0", below(0, 1, 0, [0; 4]), never),
        ("-p or later", at_most(0, 1, 0, [1, 0, 0, 0]), from_zero),
        ("after -p", below(0, 1, 0, [1, 0, 0, 0]), from_one()),
        ("before p", below(1, 0, 0, [1, 0, 0, 0]), from_one()),
    ];
    let one = |(words, bound, result)| case(&format!("a start, {words}"), &start(bound), result);
    starts.into_iter().map(one).collect()
}

/// Arrivals at 5 or later are judged with clock 1 at 0 if the move resets it. With it as it was,
/// the other answer would be right.
fn after_resets() -> Vec<Case> {
    let [from_two, to_two] = [at_most(0, 1, -2, [0; 4]), at_most(1, 0, 2, [0; 4])];
    let [from_p, to_p] = [
        at_most(0, 1, 0, [-1, 0, 0, 0]),
        at_most(1, 0, 0, [1, 0, 0, 0]),
    ];
    let all = || zones(&[([-2, 0, 0, 0], &[])], 5, 0);
    let none = || zones(&[], 0, 5);
    let p_from_0 = zones(&[([0; 4], &[P_UP])], 3, 2);
    let p_to_0 = zones(&[([-2, 0, 0, 0], &[[0, -1, 0, 0, 0]])], 3, 2);
    let [kept, reset] = [0, 1];
    vec![
        case("2 or more, a reset", &after_five(reset, from_two), none()),
        case("2 or more, no reset", &after_five(kept, from_two), all()),
        case("at most 2, a reset", &after_five(reset, to_two), all()),
        case("at most 2, no reset", &after_five(kept, to_two), none()),
        case("p or more, a reset", &after_five(reset, from_p), p_to_0),
        case("p or more, no reset", &after_five(kept, from_p), all()),
        case("at most p, a reset", &after_five(reset, to_p), p_from_0),
        case("at most p, no reset", &after_five(kept, to_p), none()),
        case("back too late", &back(kept), zones(&[], 0, 1)),
        case("back with a reset", &back(reset), zones(&[WHOLE], 1, 0)),
    ]
}

/// Strict limits on arrival: at 0 after a reset, and at 3 exactly.
fn strict() -> Vec<Case> {
    let reset = |there| after_five(1, there);
    let [all, none] = [zones(&[([-2, 0, 0, 0], &[])], 5, 0), zones(&[], 0, 5)];
    let [one, void] = [zones(&[WHOLE], 1, 0), zones(&[], 0, 1)];
    let zero = [0; 4];
    vec![
        case("below 0 at 0", &reset(below(1, 0, 0, zero)), none.clone()),
        case(
            "at most 0 at 0",
            &reset(at_most(1, 0, 0, zero)),
            all.clone(),
        ),
        case("above 0 at 0", &reset(below(0, 1, 0, zero)), none),
        case("0 or more at 0", &reset(at_most(0, 1, 0, zero)), all),
        case(
            "below 3 at 3",
            &at_three(below(1, 0, 3, zero)),
            void.clone(),
        ),
        case(
            "at most 3 at 3",
            &at_three(at_most(1, 0, 3, zero)),
            one.clone(),
        ),
        case("below 4 at 3", &at_three(below(1, 0, 4, zero)), one.clone()),
        case("above 3 at 3", &at_three(below(0, 1, -3, zero)), void),
        case("3 or more at 3", &at_three(at_most(0, 1, -3, zero)), one),
    ]
}

/// Arrivals that part a zone, the yes part first: the move leaves at most 5, which a wait would
/// take away.
fn parted() -> Vec<Case> {
    let [by_p, by_q] = [
        at_most(1, 0, 5, [1, 0, 0, 0]),
        at_most(1, 0, 5, [0, 1, 0, 0]),
    ];
    let two = zones(
        &[([-3, -3, 0, 0], &[P_DOWN]), ([0, -3, 0, 0], &[P_UP])],
        49,
        0,
    );
    // q below p, and at least p; q below 0, and at least 0
    let [below_p, from_p] = [[-1, 1, -1, 0, 0], [0, -1, 1, 0, 0]];
    let [q_down, q_up] = [[-1, 0, -1, 0, 0], [0, 0, 1, 0, 0]];
    // the last two are parted at the end of the stay
    let five = zones(
        &[
            ([-2, -3, 0, 0], &[P_DOWN, below_p]),
            ([-3, -3, 0, 0], &[P_DOWN, from_p]),
            ([0, -3, 0, 0], &[P_UP, q_down]),
            ([1, 0, 0, 0], &[P_UP, q_up, below_p]),
            ([0, 0, 0, 0], &[P_UP, q_up, from_p]),
        ],
        49,
        0,
    );
    // 4 or more and at most 5 + p: void where p is below -1, and parted elsewhere
    let cut = within_five(&[at_most(0, 1, -4, [0; 4]), by_p]);
    let from_minus_1 = [1, 1, 0, 0, 0];
    let cut_and_parted = zones(
        &[
            ([-1, -3, 0, 0], &[from_minus_1, P_DOWN]),
            ([0, -3, 0, 0], &[from_minus_1, P_UP]),
        ],
        35,
        14,
    );
    vec![
        case("parted by p on arrival", &within_five(&[by_p]), two),
        case("parted by p, then by q", &within_five(&[by_p, by_q]), five),
        case("cut and parted on arrival", &cut, cut_and_parted),
    ]
}
