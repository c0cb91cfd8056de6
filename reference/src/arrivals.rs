//! Sheets for paper 02, request (b): invariants (the paper's standing limits) that are judged at
//! the start and on arrival, after the resets.

use crate::rows::one_stay;
use crate::samples::{along, at_most, below, range};
use crate::sheet::{Guard, Parameter, Sheet};

/// A first stay without limits, a move with those guards and resets, and a stay with those
/// invariants.
fn arrival(
    parameters: &[Parameter],
    clocks: u8,
    (resets, guards): (u8, &[Guard]),
    there: &[Guard],
) -> Sheet {
    let stays = [vec![], there.to_vec()];
    let go = (resets, guards.to_vec());
    along(parameters, clocks, &stays, &[0, 1], &[go])
}

/// The green stage: a move with those guards that resets clock 2, to a stay with clock 1, the
/// minutes since mixing, at 2 or more.
fn green(parameters: &[Parameter], guards: &[Guard]) -> Sheet {
    let two = at_most(0, 1, -2, [0; 4]);
    arrival(parameters, 2, (0b10, guards), &[two])
}

/// The green stage, the move being made within one minute.
pub fn green_early() -> Sheet {
    green(&[], &[at_most(1, 0, 1, [0; 4])])
}

/// The green stage, the move being made at two minutes or later.
pub fn green_late() -> Sheet {
    green(&[], &[at_most(0, 1, -2, [0; 4])])
}

/// The green stage, the move having no guard.
pub fn green_whenever() -> Sheet {
    green(&[], &[])
}

/// The green stage, the move being made within p minutes.
pub fn green_within_p() -> Sheet {
    green(&[range(0, 4)], &[at_most(1, 0, 0, [1, 0, 0, 0])])
}

/// One stay with that invariant and an empty route, in p from -3 to 3.
pub fn start(invariant: Guard) -> Sheet {
    one_stay(&[range(-3, 3)], &[invariant])
}

/// The move is made at 5 minutes or later, with those resets, to a stay with that invariant, in p
/// from -2 to 2.
pub fn after_five(resets: u8, there: Guard) -> Sheet {
    let five = [at_most(0, 1, -5, [0; 4])];
    arrival(&[range(-2, 2)], 1, (resets, &five), &[there])
}

/// The move is made at 3 minutes exactly, to a stay with that invariant.
pub fn at_three(there: Guard) -> Sheet {
    let three = [at_most(1, 0, 3, [0; 4]), at_most(0, 1, -3, [0; 4])];
    arrival(&[], 1, (0, &three), &[there])
}

/// The move is made within 5 minutes, to a stay with those invariants, in p and q from -3 to 3.
pub fn within_five(there: &[Guard]) -> Sheet {
    let five = [at_most(1, 0, 5, [0; 4])];
    arrival(&[range(-3, 3); 2], 1, (0, &five), there)
}

/// Two clocks: a move within p minutes that resets clock 2, to a stay with clock 1 at 2 or more and
/// clock 2 below 1, in this order or the other one.
pub fn two_there(turned: bool) -> Sheet {
    let mut there = [at_most(0, 1, -2, [0; 4]), below(2, 0, 1, [0; 4])];
    if turned {
        there.reverse();
    }
    let within_p = [at_most(1, 0, 0, [1, 0, 0, 0])];
    arrival(&[range(0, 4)], 2, (0b10, &within_p), &there)
}

/// A first stay of at most 3 minutes, a move, and a move back at 4 or later, with those resets.
pub fn back(resets: u8) -> Sheet {
    let stays = [vec![at_most(1, 0, 3, [0; 4])], vec![]];
    let later = vec![at_most(0, 1, -4, [0; 4])];
    along(&[], 1, &stays, &[0, 1, 0], &[(0, vec![]), (resets, later)])
}
