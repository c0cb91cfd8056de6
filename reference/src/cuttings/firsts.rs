//! Sheets built so that the first valuation of a zone is easily missed, with results written by hand.

use super::{case, zones, Case};
use crate::bound::Expr;
use crate::rows::one_stay;
use crate::samples::{along, at_most, range};
use crate::sheet::{Guard, Parameter, Sheet};
use crate::valuations::{all, Valuation};

/// All cases.
pub fn cases() -> Vec<Case> {
    let mut list = sums();
    list.extend(whole_numbers());
    list.extend(single());
    list.push(below_zero());
    list.push(backwards());
    list
}

/// A guard 1 - 0 at most an expression: it leaves the valuations at which that is at least 0.
fn up_to(e: Expr) -> Guard {
    let [constant, p, q, r, s] = e.map(|x| x as i16);
    at_most(1, 0, constant, [p, q, r, s])
}

/// Stays of one clock that is reset between them, each with one of those guards: one zone with all those
/// inequalities.
fn all_met(parameters: &[Parameter], inequalities: &[Expr]) -> Sheet {
    let stays: Vec<Vec<Guard>> = inequalities.iter().map(|&e| vec![up_to(e)]).collect();
    let path: Vec<u8> = (0..stays.len() as u8).collect();
    let moves = vec![(1, vec![]); stays.len() - 1];
    along(parameters, 1, &stays, &path, &moves)
}

/// A case of one zone with those inequalities, that first valuation and that many valuations.
pub(super) fn one_zone(
    name: &str,
    parameters: &[Parameter],
    inequalities: &[Expr],
    first: Valuation,
    kept: usize,
) -> Case {
    let cut = all(parameters).len() - kept;
    let sheet = all_met(parameters, inequalities);
    case(name, &sheet, zones(&[(first, inequalities)], kept, cut))
}

/// Sums and differences of two parameters: the least of one goes with more than the least of the other.
fn sums() -> Vec<Case> {
    vec![
        one_zone(
            "p + q >= 5 in 0..3",
            &[range(0, 3); 2],
            &[[-5, 1, 1, 0, 0]],
            [2, 3, 0, 0],
            3,
        ),
        one_zone(
            "p + q >= 0, q at most 2",
            &[range(-4, 4), range(-4, 2)],
            &[[0, 1, 1, 0, 0]],
            [-2, 2, 0, 0],
            28,
        ),
        one_zone(
            "q >= p + 3",
            &[range(-5, 5), range(-9, 0)],
            &[[-3, -1, 1, 0, 0]],
            [-5, -2, 0, 0],
            6,
        ),
        one_zone(
            "far from zero",
            &[range(300, 363), range(-1000, -937)],
            &[[640, 1, 1, 0, 0]],
            [300, -940, 0, 0],
            2266,
        ),
        one_zone(
            "q >= 7, r >= -2, p is free",
            &[range(-3, 3), range(0, 9), range(-5, 5)],
            &[[-7, 0, 1, 0, 0], [2, 0, 0, 1, 0]],
            [-3, 7, -2, 0],
            168,
        ),
    ]
}

/// Equations that numbers with fractions meet earlier than whole ones.
fn whole_numbers() -> Vec<Case> {
    vec![
        one_zone(
            "2p = 3q + 1",
            &[range(0, 10); 2],
            &[[-1, 2, -3, 0, 0], [1, -2, 3, 0, 0]],
            [2, 1, 0, 0],
            3,
        ),
        one_zone(
            "6p + 10q + 15r = 61",
            &[range(0, 10); 3],
            &[[-61, 6, 10, 15, 0], [61, -6, -10, -15, 0]],
            [1, 1, 3, 0],
            3,
        ),
    ]
}

/// Zones of a single valuation, and ranges of a single number.
fn single() -> Vec<Case> {
    vec![
        one_zone(
            "p + q = 7, p - q = 3",
            &[range(0, 10); 2],
            &[
                [-7, 1, 1, 0, 0],
                [7, -1, -1, 0, 0],
                [-3, 1, -1, 0, 0],
                [3, -1, 1, 0, 0],
            ],
            [5, 2, 0, 0],
            1,
        ),
        one_zone(
            "the last of three ranges of 64",
            &[range(0, 63); 3],
            &[[-189, 1, 1, 1, 0]],
            [63, 63, 63, 0],
            1,
        ),
        one_zone(
            "p is -7, q is 4",
            &[range(-7, -7), range(4, 4), range(0, 9)],
            &[[0, 1, 1, 1, 0]],
            [-7, 4, 3, 0],
            7,
        ),
    ]
}

/// Ranges below zero, and no guard at all.
fn below_zero() -> Case {
    let parameters = [range(-1000, -990), range(-5, 5)];
    let whole = zones(&[([-1000, -5, 0, 0], &[])], 121, 0);
    case("no guard", &one_stay(&parameters, &[]), whole)
}

/// At most p, q and r: the last of the four zones has the earliest first valuation. The start asks
/// p and r to be at least 0 before the end of the stay compares the three.
fn backwards() -> Case {
    let parameters = [range(-2, 3), range(1, 4), range(-1, 5)];
    let up = [[0, 1, 0, 0, 0], [0, 0, 1, 0, 0], [0, 0, 0, 1, 0]].map(up_to);
    let [p_up, r_up] = [[0, 1, 0, 0, 0], [0, 0, 0, 1, 0]];
    let [q_below, p_to_q] = [[-1, 1, -1, 0, 0], [0, -1, 1, 0, 0]];
    let result = zones(
        &[
            ([2, 1, 0, 0], &[p_up, r_up, q_below, [-1, 0, 1, -1, 0]]),
            ([2, 1, 1, 0], &[p_up, r_up, q_below, [0, 0, -1, 1, 0]]),
            ([1, 1, 0, 0], &[p_up, r_up, p_to_q, [-1, 1, 0, -1, 0]]),
            ([0, 1, 0, 0], &[p_up, r_up, p_to_q, [0, -1, 0, 1, 0]]),
        ],
        96,
        72,
    );
    case("<= p, <= q, <= r", &one_stay(&parameters, &up), result)
}
