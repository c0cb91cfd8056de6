//! Standing limits at the start and on arrival, at one valuation, with results written by hand.

use super::paper::Reply::{self, Void};
use super::paper::{case, le, lt, run, run1, Case, NONE};
use crate::arrivals::{
    after_five, at_three, back, green_early, green_late, green_whenever, green_within_p, start,
    two_there, within_five,
};
use crate::samples::{at_most, below};
use crate::sheet::Sheet;

/// All cases.
pub fn cases() -> Vec<Case> {
    let mut list = green();
    list.extend(starts());
    list.extend(after_resets());
    list.extend(strict());
    list.extend(parted());
    list
}

/// The sheets of the cases that have parameters, once each.
pub fn sheets() -> Vec<Sheet> {
    let [from_p, to_p] = [
        at_most(0, 1, 0, [-1, 0, 0, 0]),
        at_most(1, 0, 0, [1, 0, 0, 0]),
    ];
    let [by_p, by_q] = [
        at_most(1, 0, 5, [1, 0, 0, 0]),
        at_most(1, 0, 5, [0, 1, 0, 0]),
    ];
    let mut list = vec![green_within_p(), two_there(false), two_there(true)];
    for strict in [false, true] {
        for mut bound in [from_p, to_p] {
            bound.strict = strict;
            list.extend([start(bound), after_five(0, bound), after_five(1, bound)]);
        }
    }
    list.push(within_five(&[by_p, by_q]));
    list.push(within_five(&[at_most(0, 1, -4, [0; 4]), by_p]));
    list
}

/// The green stage: who arrives early cannot wait it out. The first wait is w and the last one x:
/// clock 1 is w + x and clock 2, which the move resets, is x.
fn green() -> Vec<Case> {
    let from_two = |w_most| {
        run([
            [le(0), le(-2), le(0)],
            [NONE, le(0), w_most],
            [NONE, le(-2), le(0)],
        ])
    };
    let within_p = green_within_p();
    // x is below 1, w from 2 to 3
    let below_one = || {
        run([
            [le(0), le(-2), le(0)],
            [lt(4), le(0), le(3)],
            [lt(1), le(-2), le(0)],
        ])
    };
    let zeros = [0; 4];
    vec![
        case("green, early", &green_early(), zeros, Void),
        case("green, at 2 or later", &green_late(), zeros, from_two(NONE)),
        case("green, no guard", &green_whenever(), zeros, from_two(NONE)),
        case("green, within 1", &within_p, [1, 0, 0, 0], Void),
        case("green, within 2", &within_p, [2, 0, 0, 0], from_two(le(2))),
        case("green, within 4", &within_p, [4, 0, 0, 0], from_two(le(4))),
        case(
            "green and below 1",
            &two_there(false),
            [3, 0, 0, 0],
            below_one(),
        ),
        case(
            "below 1 and green",
            &two_there(true),
            [3, 0, 0, 0],
            below_one(),
        ),
        case(
            "below 1 and green, early",
            &two_there(true),
            [1, 0, 0, 0],
            Void,
        ),
    ]
}

/// Starts that are forbidden, and just not.
fn starts() -> Vec<Case> {
    let from_minus_p = start(at_most(0, 1, 0, [1, 0, 0, 0]));
    let after_minus_p = start(below(0, 1, 0, [1, 0, 0, 0]));
    let before_p = start(below(1, 0, 0, [1, 0, 0, 0]));
    let free = || run1(le(0), NONE);
    vec![
        case(
            "a start, 1 or later",
            &start(at_most(0, 1, -1, [0; 4])),
            [0; 4],
            Void,
        ),
        case(
            "a start, after 0",
            &start(below(0, 1, 0, [0; 4])),
            [0; 4],
            Void,
        ),
        case("a start, 0 or later", &from_minus_p, [0; 4], free()),
        case(
            "a start, 1 or later, by p",
            &from_minus_p,
            [-1, 0, 0, 0],
            Void,
        ),
        case("a start, after 0, by p", &after_minus_p, [0; 4], Void),
        case("a start, after -1", &after_minus_p, [1, 0, 0, 0], free()),
        case("a start, before 0", &before_p, [0; 4], Void),
        case(
            "a start, before 1",
            &before_p,
            [1, 0, 0, 0],
            run1(le(0), lt(1)),
        ),
    ]
}

/// Arrivals at 5 or later are judged with clock 1 at 0 if the move resets it. With it as it was,
/// the other answer would be right.
fn after_resets() -> Vec<Case> {
    let [from_two, to_two] = [at_most(0, 1, -2, [0; 4]), at_most(1, 0, 2, [0; 4])];
    let [from_p, to_p] = [
        at_most(0, 1, 0, [-1, 0, 0, 0]),
        at_most(1, 0, 0, [1, 0, 0, 0]),
    ];
    let late = || run1(le(-5), NONE);
    let up_to = |most| run1(le(0), le(most));
    let [kept, reset] = [0, 1];
    let one = |name, resets, there, p, result| {
        case(name, &after_five(resets, there), [p, 0, 0, 0], result)
    };
    vec![
        one("2 or more, a reset", reset, from_two, 0, Void),
        one("2 or more, no reset", kept, from_two, 0, late()),
        one("at most 2, a reset", reset, to_two, 0, up_to(2)),
        one("at most 2, no reset", kept, to_two, 0, Void),
        one("1 or more by p, a reset", reset, from_p, 1, Void),
        one(
            "0 or more by p, a reset",
            reset,
            from_p,
            0,
            run1(le(0), NONE),
        ),
        one("2 or more by p, no reset", kept, from_p, 2, late()),
        one("at most -1 by p, a reset", reset, to_p, -1, Void),
        one("at most 1 by p, a reset", reset, to_p, 1, up_to(1)),
        one("at most 2 by p, no reset", kept, to_p, 2, Void),
        case("back too late", &back(kept), [0; 4], Void),
        case("back with a reset", &back(reset), [0; 4], up_to(3)),
    ]
}

/// Strict limits on arrival: at 0 after a reset, and at 3 exactly.
fn strict() -> Vec<Case> {
    let at_zero = |name, there, result| case(name, &after_five(1, there), [0; 4], result);
    let three = |name, there, result| case(name, &at_three(there), [0; 4], result);
    let zero = [0; 4];
    vec![
        at_zero("below 0 at 0", below(1, 0, 0, zero), Void),
        at_zero("at most 0 at 0", at_most(1, 0, 0, zero), run1(le(0), le(0))),
        at_zero("above 0 at 0", below(0, 1, 0, zero), Void),
        at_zero("0 or more at 0", at_most(0, 1, 0, zero), run1(le(0), NONE)),
        three("below 3 at 3", below(1, 0, 3, zero), Void),
        three(
            "at most 3 at 3",
            at_most(1, 0, 3, zero),
            run1(le(-3), le(3)),
        ),
        three("below 4 at 3", below(1, 0, 4, zero), run1(le(-3), lt(4))),
        three("above 3 at 3", below(0, 1, -3, zero), Void),
        three(
            "3 or more at 3",
            at_most(0, 1, -3, zero),
            run1(le(-3), NONE),
        ),
    ]
}

/// A move within 5 minutes, to a stay of at most 5 + p, or of 4 or more as well.
fn parted() -> Vec<Case> {
    let by_p = at_most(1, 0, 5, [1, 0, 0, 0]);
    let wide = within_five(&[by_p]);
    let narrow = within_five(&[at_most(0, 1, -4, [0; 4]), by_p]);
    let one = |name, sheet: &Sheet, p, result: Reply| case(name, sheet, [p, 0, 0, 0], result);
    vec![
        one("at most 2 after 5", &wide, -3, run1(le(0), le(2))),
        one("at most 8 after 5", &wide, 3, run1(le(0), le(8))),
        one("4 or more, at most 3", &narrow, -2, Void),
        one("4 or more, at most 4", &narrow, -1, run1(le(-4), le(4))),
        one("4 or more, at most 6", &narrow, 1, run1(le(-4), le(6))),
    ]
}

#[cfg(test)]
mod tests {
    use super::*;

    /// Sweep gives the results that are written here.
    #[test]
    fn results_are_as_built() {
        for case in cases() {
            assert!(case.is_right(), "{}", case.name);
        }
    }
}
