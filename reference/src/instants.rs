//! A second way to Sweep's matrix, which takes no step of `sweep` and no matrix of clocks: paper 01,
//! "Runs", as inequalities between the instants of a run.
//!
//! Instant 0 is the start, and instant k + 1 the end of the wait of visit k. A move takes no time,
//! so that it is also the instant of the arrival. A clock's value is the present instant less the
//! instant of its last reset, so each guard bounds a difference of two instants; so does a wait,
//! which is not negative. The tightest bounds of all differences are shortest paths, and there is
//! no run if a way around is below zero.

use crate::sheet::{Guard, Sheet};
use crate::valuations::Valuation;
use crate::weight::Weight;

/// A path's length, made one number: at most c is 2 c + 1, below c is 2 c.
type Length = i64;

/// The length of no path.
const FAR: Length = i64::MAX;
/// At most 0: the length of a path that stays.
const HERE: Length = 1;

/// Lengths from instant to instant: `length[s][t]` bounds instant t - instant s.
struct Instants {
    length: Vec<Vec<Length>>,
}

impl Instants {
    /// That many instants, each not before the one that it follows.
    fn in_order(count: usize) -> Instants {
        let mut length = vec![vec![FAR; count]; count];
        for (k, row) in length.iter_mut().enumerate() {
            row[k] = HERE;
        }
        for k in 1..count {
            length[k][k - 1] = HERE;
        }
        Instants { length }
    }

    /// Adds the inequality that instant t - instant s has at most that length.
    fn add(&mut self, s: usize, t: usize, length: Length) {
        let old = &mut self.length[s][t];
        *old = length.min(*old);
    }

    /// Makes all lengths those of the shortest paths (Floyd and Warshall), and answers whether every
    /// way around is at least zero.
    fn close(&mut self) -> bool {
        let count = self.length.len();
        for via in 0..count {
            for s in 0..count {
                for t in 0..count {
                    let around = joined(self.length[s][via], self.length[via][t]);
                    self.add(s, t, around);
                }
            }
            if (0..count).any(|s| self.length[s][s] < HERE) {
                return false;
            }
        }
        true
    }
}

/// The length of two paths, one after the other: the numbers added, and below if either is.
fn joined(x: Length, y: Length) -> Length {
    if x == FAR || y == FAR {
        FAR
    } else {
        2 * (x.div_euclid(2) + y.div_euclid(2)) + x.rem_euclid(2) * y.rem_euclid(2)
    }
}

/// The tightest bounds for clock 0 and the sheet's clocks at the end of the route, or nothing if
/// there is no run. The numbers are a valuation of the sheet.
pub fn bounds(sheet: &Sheet, v: Valuation) -> Option<Vec<Vec<Weight>>> {
    let count = sheet.route.len() + 2;
    let mut instants = Instants::in_order(count);
    let mut zero_at = vec![0; usize::from(sheet.clocks) + 1];
    let mut location = 0;
    hold(&mut instants, &zero_at, &sheet.locations[0].invariants, v);
    for (k, &number) in sheet.route.iter().enumerate() {
        let transition = &sheet.transitions[usize::from(number)];
        zero_at[0] = k + 1;
        hold(
            &mut instants,
            &zero_at,
            &sheet.locations[location].invariants,
            v,
        );
        hold(&mut instants, &zero_at, &transition.guards, v);
        for (clock, at) in zero_at.iter_mut().enumerate().skip(1) {
            if transition.resets & 1 << (clock - 1) != 0 {
                *at = k + 1;
            }
        }
        location = usize::from(transition.to);
        hold(
            &mut instants,
            &zero_at,
            &sheet.locations[location].invariants,
            v,
        );
    }
    zero_at[0] = count - 1;
    hold(
        &mut instants,
        &zero_at,
        &sheet.locations[location].invariants,
        v,
    );
    if instants.close() {
        Some(differences(&instants, &zero_at))
    } else {
        None
    }
}

/// Adds the inequalities of guards that hold now. `zero_at` gives the instant at which each clock was
/// last zero; for clock 0 that is the present one.
fn hold(instants: &mut Instants, zero_at: &[usize], guards: &[Guard], v: Valuation) {
    for guard in guards {
        let terms = guard.coefficients.iter().zip(v);
        let sum: i64 = terms.map(|(&c, x)| i64::from(c) * x).sum();
        let number = i64::from(guard.constant) + sum;
        let length = 2 * number + i64::from(!guard.strict);
        let (a, b) = (usize::from(guard.a), usize::from(guard.b));
        instants.add(zero_at[a], zero_at[b], length);
    }
}

/// The bounds of clock i - clock j, which is the last zero of j less the last zero of i.
fn differences(instants: &Instants, zero_at: &[usize]) -> Vec<Vec<Weight>> {
    let row = |&s: &usize| {
        let entry = |&t: &usize| weight(instants.length[s][t]);
        zero_at.iter().map(entry).collect()
    };
    zero_at.iter().map(row).collect()
}

/// A length as a weight.
fn weight(length: Length) -> Weight {
    if length == FAR {
        return Weight::None;
    }
    Weight::At {
        value: length.div_euclid(2),
        strict: length.rem_euclid(2) == 0,
    }
}
