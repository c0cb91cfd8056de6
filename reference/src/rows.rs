//! The sheets of paper 01, "Sheets to try", by the names that they have in the folder `sheets`, and sheets at
//! which one of the paper's "Wrong turns" shows.

use crate::samples::{a_with, along, at_most, below, range};
use crate::sheet::{Guard, Parameter, Sheet};

/// 1 - 0 <= p.
const UP_P: Guard = at_most(1, 0, 0, [1, 0, 0, 0]);
/// 1 - 0 <= q.
const UP_Q: Guard = at_most(1, 0, 0, [0, 1, 0, 0]);

/// One clock, one location with those invariants, and an empty route.
pub fn one_stay(parameters: &[Parameter], invariants: &[Guard]) -> Sheet {
    along(parameters, 1, &[invariants.to_vec()], &[0], &[])
}

/// One clock, a location with those invariants, and a move with those guards to one without any.
fn one_move(parameters: &[Parameter], invariants: &[Guard], guards: &[Guard]) -> Sheet {
    let stays = [invariants.to_vec(), vec![]];
    along(parameters, 1, &stays, &[0, 1], &[(0, guards.to_vec())])
}

/// Sheet A with 1 - 0 < p.
pub fn a_strict() -> Sheet {
    a_with(|s| s.locations[0].invariants[0].strict = true)
}

/// Sheet A with a route of that many moves, without a guard, that come back to location 0.
pub fn a_around(moves: usize) -> Sheet {
    a_with(|s| {
        s.transitions[0].to = 0;
        s.transitions[0].guards.clear();
        s.route = vec![0; moves];
    })
}

/// Sheet A with its move a second time, from where it does not start.
pub fn a_apart() -> Sheet {
    a_with(|s| s.route = vec![0, 0])
}

/// At most p, then at most q.
pub fn p_then_q() -> Sheet {
    one_stay(&[range(0, 5); 2], &[UP_P, UP_Q])
}

/// At most q, then at most p.
pub fn q_then_p() -> Sheet {
    one_stay(&[range(0, 5); 2], &[UP_Q, UP_P])
}

/// No limits, empty route.
pub fn no_limits() -> Sheet {
    one_stay(&[], &[])
}

/// Below p, which is 0.
pub fn below_zero() -> Sheet {
    one_stay(&[range(0, 0)], &[below(1, 0, 0, [1, 0, 0, 0])])
}

/// A move from -p on.
pub fn from_minus_p() -> Sheet {
    one_move(&[range(-5, 5)], &[], &[at_most(0, 1, 0, [1, 0, 0, 0])])
}

/// At most -2p, then a move from 5 on: -2p - 5 >= 0.
pub fn minus_two_p() -> Sheet {
    from_five(range(-10, 0), -2)
}

/// At most 2p, then a move from 5 on: 2p - 5 >= 0.
pub fn two_p() -> Sheet {
    from_five(range(0, 10), 2)
}

/// At most that many times p, then a move from 5 on.
fn from_five(p: Parameter, factor: i16) -> Sheet {
    let stay = [at_most(1, 0, 0, [factor, 0, 0, 0])];
    one_move(&[p], &stay, &[at_most(0, 1, -5, [0; 4])])
}

/// At most 0, then a move from 0 on.
pub fn at_once() -> Sheet {
    at_zero(at_most(0, 1, 0, [0; 4]))
}

/// At most 0, then a move after 0.
pub fn never() -> Sheet {
    at_zero(below(0, 1, 0, [0; 4]))
}

/// At most 0, then a move with that guard.
fn at_zero(guard: Guard) -> Sheet {
    one_move(&[], &[at_most(1, 0, 0, [0; 4])], &[guard])
}

/// One stay of at most p, q and r, each from 0 to 63.
pub fn least_of_three() -> Sheet {
    let up_r = at_most(1, 0, 0, [0, 0, 1, 0]);
    one_stay(&[range(0, 63); 3], &[UP_P, UP_Q, up_r])
}

/// Two clocks: a stay that ends with that guard and clock 1 at least 3, a move that resets clock 2,
/// and a stay that ends with clock 2 at most 2.
pub fn two_clocks(first: Guard) -> Sheet {
    let stays = [vec![first], vec![at_most(2, 0, 2, [0; 4])]];
    let go = (0b10, vec![at_most(0, 1, -3, [0; 4])]);
    along(&[], 2, &stays, &[0, 1], &[go])
}

/// Two clocks, at least 4 and at most 6 minutes in the first stay, a reset of clock 2, and a last
/// stay without an end.
pub fn wait_keeps() -> Sheet {
    let first = vec![at_most(1, 0, 6, [0; 4])];
    let go = (0b10, vec![at_most(0, 1, -4, [0; 4])]);
    along(&[], 2, &[first, vec![]], &[0, 1], &[go])
}

/// Three clocks: a first stay of at most 4 minutes, a reset of clock 1, a stay, a reset of clock 3,
/// a stay of at least 1 minute, and a last one with clock 1 at most 5.
pub fn three_clocks() -> Sheet {
    let first = vec![at_most(2, 0, 4, [0; 4])];
    let last = vec![at_most(1, 0, 5, [0; 4])];
    let stays = [first, vec![], vec![], last];
    let go = (0, vec![at_most(0, 3, -1, [0; 4])]);
    let moves = [(0b001, vec![]), (0b100, vec![]), go];
    along(&[], 3, &stays, &[0, 1, 2, 3], &moves)
}
