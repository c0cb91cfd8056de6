//! Good sheets around a run: the route and its waits are chosen first, and then guards that this run
//! meets, most of them with nothing to spare. Random guards alone leave few routes a run.

use crate::random::Random;
use crate::samples::{at_most, location, narrow, random_clocks, range, transition};
use crate::sheet::{Guard, Parameter, Sheet, MOST_GUARDS, MOST_PARAMETERS};
use crate::valuations::Valuation;

/// What a planned sheet has: its version, that many of each, up to that many guards at each place, and
/// ranges up to that width.
#[derive(Clone, Copy)]
pub struct Shape {
    pub version: u8,
    pub parameters: usize,
    pub width: i16,
    pub clocks: u8,
    pub locations: usize,
    pub transitions: usize,
    pub moves: usize,
    pub guards: usize,
}

/// A sheet, and a valuation that it was planned for.
#[derive(Clone)]
pub struct Planned {
    pub sheet: Sheet,
    pub valuation: Valuation,
}

/// A random shape of version 1: up to those counts of moves and guards, few locations and
/// transitions, ranges up to that width.
pub fn random_shape(random: &mut Random, moves: usize, guards: usize, width: i16) -> Shape {
    let locations = 1 + random.below(4);
    Shape {
        version: 1,
        parameters: random.below(4),
        width,
        clocks: 1 + random.below(4) as u8,
        locations,
        transitions: locations + random.below(4),
        moves: random.below(moves + 1),
        guards,
    }
}

/// A way to draw a coefficient.
type Draw = fn(&mut Random) -> i16;

/// A sheet of that shape. One in three has a guard that the planned run may miss by a little.
pub fn planned(random: &mut Random, shape: Shape) -> Planned {
    let sheet = bare(random, shape);
    let valuation = valuation(random, &sheet.parameters);
    around(random, shape, sheet, valuation, coefficient_of)
}

/// A sheet of that shape whose guards' bounds cross in the middle of the ranges, so that the ranges are
/// cut in many zones: it is planned for the middle, and its ranges have at least half the shape's width.
pub fn crossed(random: &mut Random, shape: Shape) -> Planned {
    let mut sheet = bare(random, shape);
    for parameter in &mut sheet.parameters {
        let width = random.from_to(shape.width / 2, shape.width);
        let lowest = random.from_to(-width, 3);
        *parameter = range(lowest, lowest + width);
    }
    narrow(&mut sheet.parameters);
    let mut valuation = [0; MOST_PARAMETERS];
    for (x, p) in valuation.iter_mut().zip(&sheet.parameters) {
        *x = i64::from((p.lowest + p.highest) / 2);
    }
    around(random, shape, sheet, valuation, steep_coefficient)
}

/// The sheet with guards around a run at that valuation, their coefficients being drawn in that way.
fn around(
    random: &mut Random,
    shape: Shape,
    mut sheet: Sheet,
    valuation: Valuation,
    draw: Draw,
) -> Planned {
    let seen = visits(random, &sheet);
    let mut late = Vec::new();
    for (k, location) in sheet.locations.iter_mut().enumerate() {
        let stays = seen.iter().filter(|visit| visit.location == k);
        let values: (Vec<Clocks>, Vec<Clocks>) = stays.map(|v| (v.first, v.last)).unzip();
        let (standing, leaving) = stay_guards(random, shape, &values, valuation, draw);
        location.invariants = standing;
        late.push(leaving);
    }
    for (k, transition) in sheet.transitions.iter_mut().enumerate() {
        let made = seen.iter().filter(|visit| visit.transition == Some(k));
        let values: Vec<Clocks> = made.map(|visit| visit.last).collect();
        let list = guards(random, shape, &values, valuation, draw);
        transition.guards = [&list[..], &late[usize::from(transition.from)]].concat();
        transition.guards.truncate(MOST_GUARDS);
    }
    if random.once_in(3) {
        tighten(random, &mut sheet);
    }
    Planned { sheet, valuation }
}

/// Guards around stays in one location, of which the first and the last clocks are given: its
/// invariants, and guards for the transitions that leave it. A lower guard on a clock that is 0 on
/// arrival could only cut there, so that most of these leave.
fn stay_guards(
    random: &mut Random,
    shape: Shape,
    (firsts, lasts): &(Vec<Clocks>, Vec<Clocks>),
    v: Valuation,
    draw: Draw,
) -> (Vec<Guard>, Vec<Guard>) {
    let only_cuts = |g: &Guard| g.a == 0 && firsts.iter().any(|x| x[usize::from(g.b)] == 0);
    let both = [&firsts[..], lasts].concat();
    let mut standing = guards(random, shape, &both, v, draw);
    standing.retain(|g| !only_cuts(g) || random.once_in(8));
    let mut leaving = guards(random, shape, lasts, v, draw);
    leaving.retain(only_cuts);
    (standing, leaving)
}

/// A sheet of that shape without guards. Every location has a transition that leaves it, so that a
/// route can be as long as it has to.
fn bare(random: &mut Random, shape: Shape) -> Sheet {
    let locations = shape.locations;
    let mut transitions = Vec::new();
    for k in 0..shape.transitions {
        let from = if k < locations {
            k
        } else {
            random.below(locations)
        };
        let to = random.below(locations);
        let resets = random.below(1 << shape.clocks) as u8 & random.byte();
        transitions.push(transition(from as u8, to as u8, resets, &[]));
    }
    let mut sheet = Sheet {
        version: shape.version,
        parameters: (0..shape.parameters)
            .map(|_| parameter(random, shape.width))
            .collect(),
        clocks: shape.clocks,
        locations: vec![location(&[]); locations],
        transitions,
        route: Vec::new(),
    };
    narrow(&mut sheet.parameters);
    let mut here = 0;
    for _ in 0..shape.moves {
        let next: Vec<u8> = (0..shape.transitions as u8)
            .filter(|&t| sheet.transitions[usize::from(t)].from == here)
            .collect();
        let number = next[random.below(next.len())];
        sheet.route.push(number);
        here = sheet.transitions[usize::from(number)].to;
    }
    sheet
}

/// A range up to that width; one in four lies at an end of what is allowed.
fn parameter(random: &mut Random, width: i16) -> Parameter {
    let width = random.from_to(0, width);
    let lowest = match random.below(8) {
        0 => -1000,
        1 => 1000 - width,
        2 => random.from_to(-1000, 1000 - width),
        _ => random.from_to(-9, 9),
    };
    range(lowest, lowest + width)
}

/// A valuation of those parameters.
pub fn valuation(random: &mut Random, parameters: &[Parameter]) -> Valuation {
    let mut v = [0; MOST_PARAMETERS];
    for (x, p) in v.iter_mut().zip(parameters) {
        *x = i64::from(random.from_to(p.lowest, p.highest));
    }
    v
}

/// The clocks in half minutes, clock 0 first.
type Clocks = [i64; 5];

/// A stay: where, which transition follows, and the clocks at its start and at its end.
struct Visit {
    location: usize,
    transition: Option<usize>,
    first: Clocks,
    last: Clocks,
}

/// The visits of a run along the sheet's route, its waits being random.
fn visits(random: &mut Random, sheet: &Sheet) -> Vec<Visit> {
    let mut list = Vec::new();
    let mut clocks = [0; 5];
    let mut here = 0;
    for next in sheet
        .route
        .iter()
        .map(|&t| Some(usize::from(t)))
        .chain([None])
    {
        let first = clocks;
        let wait = some_wait(random);
        for clock in &mut clocks[1..] {
            *clock += wait;
        }
        list.push(Visit {
            location: here,
            transition: next,
            first,
            last: clocks,
        });
        if let Some(t) = next {
            let resets = sheet.transitions[t].resets;
            for clock in (1..5).filter(|c| resets >> (c - 1) & 1 == 1) {
                clocks[clock] = 0;
            }
            here = usize::from(sheet.transitions[t].to);
        }
    }
    list
}

/// A wait in half minutes.
fn some_wait(random: &mut Random) -> i64 {
    match random.below(8) {
        0 | 1 => 0,
        2 => 2 * random.below(100) as i64,
        3 => random.below(60) as i64,
        _ => random.below(9) as i64,
    }
}

/// Up to the shape's count of guards that those clocks meet at that valuation.
fn guards(
    random: &mut Random,
    shape: Shape,
    values: &[Clocks],
    v: Valuation,
    draw: Draw,
) -> Vec<Guard> {
    let count = random.below(shape.guards + 1);
    (0..count)
        .filter_map(|_| guard(random, shape, values, v, draw))
        .collect()
}

/// A guard that those clocks meet at that valuation, unless its constant would be too large.
fn guard(
    random: &mut Random,
    shape: Shape,
    values: &[Clocks],
    v: Valuation,
    draw: Draw,
) -> Option<Guard> {
    let (a, b) = random_clocks(random, shape.clocks);
    let difference = |x: &Clocks| x[usize::from(a)] - x[usize::from(b)];
    let halves = values.iter().map(difference).max();
    let halves = halves.unwrap_or(random.below(9) as i64);
    let spare = if random.once_in(2) {
        0
    } else {
        random.below(4) as i64
    };
    let least = (halves + 1).div_euclid(2) + spare;
    let mut coefficients = [0; MOST_PARAMETERS];
    for coefficient in &mut coefficients[..shape.parameters] {
        *coefficient = draw(random);
    }
    let constant = least - product(coefficients, v);
    if !(-1000..=1000).contains(&constant) {
        return None;
    }
    let mut guard = at_most(a, b, constant as i16, coefficients);
    guard.strict = 2 * least > halves && random.once_in(2);
    Some(guard)
}

/// A coefficient, most often small.
fn coefficient_of(random: &mut Random) -> i16 {
    match random.below(12) {
        0 => random.from_to(-40, 40),
        1..=3 => 0,
        4 | 5 => random.from_to(-3, 3),
        _ => random.from_to(-1, 1),
    }
}

/// A coefficient, most often not 0.
fn steep_coefficient(random: &mut Random) -> i16 {
    match random.below(12) {
        0 => random.from_to(-20, 20),
        1 | 2 => 0,
        3..=5 => random.from_to(-4, 4),
        6 | 7 => random.from_to(-2, 2),
        8 | 9 => 1,
        _ => -1,
    }
}

/// The sum of coefficient times number.
fn product(coefficients: [i16; MOST_PARAMETERS], v: Valuation) -> i64 {
    let terms = coefficients.iter().zip(v);
    terms.map(|(&c, x)| i64::from(c) * x).sum()
}

/// Makes one guard of the sheet, if it has any, strict or a little tighter.
fn tighten(random: &mut Random, sheet: &mut Sheet) {
    let mut all: Vec<&mut Guard> = sheet.guards_mut().flatten().collect();
    if all.is_empty() {
        return;
    }
    let k = random.below(all.len());
    if random.once_in(2) {
        all[k].strict = true;
    } else {
        all[k].constant = (all[k].constant - random.from_to(0, 2)).max(-1000);
    }
}
