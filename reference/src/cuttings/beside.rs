//! Sheets with a transition 0 that no route makes: its guards are put to the zones by themselves (`alone`),
//! and have no part in them.

use super::drawn::{many, with_table};
use super::Record;
use crate::planned::{crossed, random_shape, Shape};
use crate::random::Random;
use crate::samples::{at_most, random_clocks, transition};
use crate::sheet::{Guard, Sheet, MOST_GUARDS, MOST_PARAMETERS};
use crate::valuations::{all, Valuation};
use crate::weight::Weight;
use crate::windows::{cut, Limits, Zone};

/// The sheet with one more transition before the others, which its route does not make, with those guards.
pub(super) fn beside(mut sheet: Sheet, guards: &[Guard]) -> Sheet {
    sheet.transitions.insert(0, transition(0, 0, 0, guards));
    for number in &mut sheet.route {
        *number += 1;
    }
    sheet
}

/// Random sheets with six guards beside the route, each near the bounds of one of their zones.
pub(super) fn records(random: &mut Random) -> Vec<Record> {
    many(120, |n| {
        let (parameters, width) = [(1, 40), (2, 16), (3, 7)][n % 3];
        with_guards_beside(random, |random| {
            let mut shape = random_shape(random, 6, 2 + n % 3, width);
            shape.parameters = parameters;
            shape.clocks = 1 + (n / 3 % 4) as u8;
            shape
        })
    })
}

/// A random sheet of one of those shapes, with six guards beside the route, each near the bounds of one of its zones.
pub(super) fn with_guards_beside(
    random: &mut Random,
    shape: impl Fn(&mut Random) -> Shape,
) -> Record {
    loop {
        let shape = shape(random);
        let sheet = crossed(random, shape).sheet;
        let zones = cut(&sheet, Limits::PAPER).map_or(Vec::new(), |found| found.zones);
        if !zones.is_empty() {
            let near: Vec<Guard> = (0..MOST_GUARDS)
                .map(|_| near(random, &sheet, &zones))
                .collect();
            return with_table(random, &beside(sheet, &near));
        }
    }
}

/// A guard whose bound is that of one of the zones at one of its valuations, or a little more or less.
fn near(random: &mut Random, sheet: &Sheet, zones: &[Zone]) -> Guard {
    let (a, b) = random_clocks(random, sheet.clocks);
    let zone = &zones[random.below(zones.len())];
    let held: Vec<Valuation> = all(&sheet.parameters)
        .into_iter()
        .filter(|&v| zone.holds(v))
        .collect();
    let v = held[random.below(held.len())];
    let mut coefficients = [0; MOST_PARAMETERS];
    for coefficient in &mut coefficients[..sheet.parameters.len()] {
        *coefficient = random.from_to(-3, 3);
    }
    let there = match zone.bounds[usize::from(a)][usize::from(b)].at(v) {
        Weight::At { value, .. } => value,
        Weight::None => random.within(0, 20),
    };
    let terms = coefficients.iter().zip(v);
    let sum: i64 = terms.map(|(&c, x)| i64::from(c) * x).sum();
    let constant = there + random.within(-2, 2) - sum;
    let mut guard = at_most(a, b, constant.clamp(-1000, 1000) as i16, coefficients);
    guard.strict = random.once_in(3);
    guard
}
