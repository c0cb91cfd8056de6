//! Sweep: the matrix at one valuation (paper 01, "Cutting the ranges", read at one setting), and
//! refusals 2 to 6 and 16.

use crate::sheet::{read, Guard, Refusal, Sheet, MOST_CLOCKS};
use crate::valuations::Valuation;
use crate::weight::Weight;

/// Rows and columns of a matrix: clock 0 and the most clocks of a sheet.
pub const SIDE: usize = MOST_CLOCKS + 1;

/// A matrix; entry (i, j) bounds clock i - clock j.
pub type Matrix = [[Weight; SIDE]; SIDE];

/// All entries zero, not strict.
pub const ZEROS: Matrix = [[Weight::ZERO; SIDE]; SIDE];

/// The matrix of the tightest bounds, nothing if there is no run (the paper's void), or the first of
/// refusals 2, 3, 4, 16, 5 and 6.
pub fn sweep(file: &[u8], v: Valuation) -> Result<Option<Matrix>, Refusal> {
    let sheet = read(file)?;
    inside(&sheet, v)?;
    Ok(walk(&sheet, v))
}

/// Nothing if the numbers are a valuation of the sheet, and otherwise refusal 6 at the first
/// that lies outside its range, or is not 0 where the sheet has no such parameter.
fn inside(sheet: &Sheet, v: Valuation) -> Result<(), Refusal> {
    for (place, x) in v.into_iter().enumerate() {
        let right = match sheet.parameters.get(place) {
            Some(p) => i64::from(p.lowest) <= x && x <= i64::from(p.highest),
            None => x == 0,
        };
        if !right {
            return Err(Refusal { number: 6, place });
        }
    }
    Ok(())
}

/// The matrix of a sheet after the whole route at one of its valuations, or nothing if a guard left
/// none. The invariants of a location hold at the start or on arrival, after the resets, and again
/// at the end of the stay (paper 02, request (b)).
pub fn walk(sheet: &Sheet, v: Valuation) -> Option<Matrix> {
    let clocks = usize::from(sheet.clocks);
    let mut at = 0;
    let mut m = invariants(ZEROS, sheet, at, v)?;
    for &number in &sheet.route {
        let transition = &sheet.transitions[usize::from(number)];
        m = stay(m, sheet, at, v)?;
        m = guards(m, clocks, &transition.guards, v)?;
        m = resets(m, clocks, transition.resets);
        at = usize::from(transition.to);
        m = invariants(m, sheet, at, v)?;
    }
    stay(m, sheet, at, v)
}

/// The matrix after a wait in that location, ended by its invariants.
fn stay(m: Matrix, sheet: &Sheet, location: usize, v: Valuation) -> Option<Matrix> {
    let clocks = usize::from(sheet.clocks);
    invariants(wait(m, clocks), sheet, location, v)
}

/// The matrix after the invariants of that location.
fn invariants(m: Matrix, sheet: &Sheet, location: usize, v: Valuation) -> Option<Matrix> {
    let clocks = usize::from(sheet.clocks);
    guards(m, clocks, &sheet.locations[location].invariants, v)
}

/// The matrix after a wait: entries (i, 0), i >= 1, become none.
fn wait(mut m: Matrix, clocks: usize) -> Matrix {
    for row in &mut m[1..=clocks] {
        row[0] = Weight::None;
    }
    m
}

/// The matrix after those guards in order, or nothing.
fn guards(m: Matrix, clocks: usize, list: &[Guard], v: Valuation) -> Option<Matrix> {
    list.iter().try_fold(m, |m, g| guard(m, clocks, g, v))
}

/// The matrix after one guard, or nothing: rules (1), (2) and (3) of the paper.
fn guard(m: Matrix, clocks: usize, guard: &Guard, v: Valuation) -> Option<Matrix> {
    let (i, j) = (usize::from(guard.a), usize::from(guard.b));
    let e = bound(guard, v);
    if e.sum(m[j][i]).tighter(Weight::ZERO) {
        return None;
    }
    if !e.tighter(m[i][j]) {
        return Some(m);
    }
    let mut next = m;
    for k in 0..=clocks {
        for l in 0..=clocks {
            let through = m[k][i].sum(e).sum(m[j][l]);
            if through.tighter(m[k][l]) {
                next[k][l] = through;
            }
        }
    }
    Some(next)
}

/// The guard's bound with the valuation put in.
fn bound(guard: &Guard, v: Valuation) -> Weight {
    let mut value = i64::from(guard.constant);
    for (coefficient, x) in guard.coefficients.into_iter().zip(v) {
        value += i64::from(coefficient) * x;
    }
    Weight::At {
        value,
        strict: guard.strict,
    }
}

/// The matrix after the resets, in rising order.
fn resets(m: Matrix, clocks: usize, bits: u8) -> Matrix {
    (1..=clocks)
        .filter(|r| bits >> (r - 1) & 1 == 1)
        .fold(m, |m, r| reset(m, clocks, r))
}

/// The matrix after the reset of clock r: for j other than r, (r, j) takes (0, j) and (j, r) takes
/// (j, 0).
fn reset(m: Matrix, clocks: usize, r: usize) -> Matrix {
    let mut next = m;
    for j in (0..=clocks).filter(|&j| j != r) {
        next[r][j] = m[0][j];
        next[j][r] = m[j][0];
    }
    next
}
