//! The digest of the table that Windows fills.

use crate::bound::{Bound, Expr};
use crate::digest::{digest, signed};
use crate::sheet::MOST_PARAMETERS;
use crate::sweep::SIDE;
use crate::windows::{Zone, MOST_INEQUALITIES};

/// The digest of a table of that many places that holds those zones, the rest of it being blank. That of a
/// blank table is 0.
///
/// The numbers of a table are, place by place: 1 if it is used and 0 otherwise, the four numbers of its
/// first valuation, the count of inequalities, the five numbers of each of the 24 inequalities, and for each
/// of the 25 bounds in row order 1 if it is none, 1 if it is strict, each 0 otherwise, and its five numbers.
/// Those of valuations, inequalities and bounds are numbers with sign. The four numbers of a blank place, and
/// the five of none and of a place for an inequality that is not in use, are zeros.
pub(super) fn digest_of(zones: &[Zone], places: usize) -> u64 {
    let blank = Zone {
        first: [0; MOST_PARAMETERS],
        inequalities: Vec::new(),
        bounds: [[Bound::ZERO; SIDE]; SIDE],
    };
    let mut numbers = Vec::new();
    for k in 0..places {
        let zone = zones.get(k);
        numbers.push(u64::from(zone.is_some()));
        place(&mut numbers, zone.unwrap_or(&blank));
    }
    digest(numbers)
}

/// Adds the numbers of a place behind its first.
fn place(numbers: &mut Vec<u64>, zone: &Zone) {
    numbers.extend(zone.first.into_iter().flat_map(signed));
    numbers.push(zone.inequalities.len() as u64);
    for k in 0..MOST_INEQUALITIES {
        let inequality = zone.inequalities.get(k).copied();
        numbers.extend(expression(inequality.unwrap_or_default()));
    }
    for &bound in zone.bounds.iter().flatten() {
        let (none, strict, expr) = match bound {
            Bound::None => (true, false, Expr::default()),
            Bound::At { expr, strict } => (false, strict, expr),
        };
        numbers.extend([none, strict].map(u64::from));
        numbers.extend(expression(expr));
    }
}

/// The numbers of an expression.
fn expression(e: Expr) -> impl Iterator<Item = u64> {
    e.into_iter().flat_map(signed)
}
