//! Good sheets: sheet A of the paper, a second one with more of everything, the biggest there is,
//! and random ones.

use crate::random::Random;
use crate::sheet::{
    parameters_of, valuations, Guard, Location, Parameter, Sheet, Transition, MOST_BYTES,
    MOST_CLOCKS, MOST_GUARDS, MOST_LOCATIONS, MOST_PARAMETERS, MOST_ROUTE, MOST_TRANSITIONS,
    MOST_VALUATIONS,
};
use crate::writer;

/// The guard a - b <= constant + sum of coefficients times parameters.
pub const fn at_most(a: u8, b: u8, constant: i16, coefficients: [i16; MOST_PARAMETERS]) -> Guard {
    Guard {
        a,
        b,
        strict: false,
        constant,
        coefficients,
    }
}

/// The guard a - b < constant + sum of coefficients times parameters.
pub const fn below(a: u8, b: u8, constant: i16, coefficients: [i16; MOST_PARAMETERS]) -> Guard {
    Guard {
        strict: true,
        ..at_most(a, b, constant, coefficients)
    }
}

/// The parameter with that range.
pub const fn range(lowest: i16, highest: i16) -> Parameter {
    Parameter { lowest, highest }
}

/// The location with those invariants.
pub fn location(invariants: &[Guard]) -> Location {
    Location {
        invariants: invariants.to_vec(),
    }
}

/// The transition with those fields.
pub fn transition(from: u8, to: u8, resets: u8, guards: &[Guard]) -> Transition {
    Transition {
        from,
        to,
        resets,
        guards: guards.to_vec(),
    }
}

/// The sheet with those parameters, clocks and invariants of locations whose route follows the path, a list of
/// locations that starts with 0. Transition k is the route's k-th, with those resets and guards. It is of version 1,
/// unless it has four parameters.
pub fn along(
    parameters: &[Parameter],
    clocks: u8,
    stays: &[Vec<Guard>],
    path: &[u8],
    moves: &[(u8, Vec<Guard>)],
) -> Sheet {
    let steps = path.windows(2).zip(moves);
    let version = if parameters.len() > 3 { 2 } else { 1 };
    Sheet {
        version,
        parameters: parameters.to_vec(),
        clocks,
        locations: stays.iter().map(|list| location(list)).collect(),
        transitions: steps
            .map(|(ends, (resets, list))| transition(ends[0], ends[1], *resets, list))
            .collect(),
        route: (0..moves.len() as u8).collect(),
    }
}

/// The sheet as one of version 2.
pub fn in_version_2(sheet: Sheet) -> Sheet {
    Sheet {
        version: 2,
        ..sheet
    }
}

/// Sheet A of the paper. Its bodies of 5, 16, 17 and 2 bytes lie at 22, 27, 43 and 60.
pub fn sheet_a() -> Sheet {
    let stays = [vec![at_most(1, 0, 0, [1, 0, 0, 0])], vec![]];
    let go = (0, vec![at_most(0, 1, -3, [0; 4])]);
    along(&[range(0, 10)], 1, &stays, &[0, 1], &[go])
}

/// Sheet A after a change.
pub fn a_with(change: impl Fn(&mut Sheet)) -> Sheet {
    let mut sheet = sheet_a();
    change(&mut sheet);
    sheet
}

/// Sheet B: two parameters, three clocks, three locations, three transitions and a route of five.
/// Its bodies of 9, 41, 49 and 6 bytes lie at 22, 31, 72 and 121.
pub fn sheet_b() -> Sheet {
    Sheet {
        version: 1,
        parameters: vec![range(-20, 11), range(300, 363)],
        clocks: 3,
        locations: vec![
            location(&[
                at_most(1, 0, 700, [-2, 1, 0, 0]),
                below(3, 0, 999, [0, 0, 0, 0]),
            ]),
            location(&[]),
            location(&[at_most(0, 2, -1, [5, 0, 0, 0])]),
        ],
        transitions: vec![
            transition(0, 2, 0b101, &[below(2, 0, 40, [1, 1, 0, 0])]),
            transition(2, 0, 0b010, &[]),
            transition(
                0,
                0,
                0,
                &[
                    at_most(0, 1, -300, [0, 1, 0, 0]),
                    below(0, 3, 0, [-1000, 1, 0, 0]),
                ],
            ),
        ],
        route: vec![0, 1, 2, 2, 0],
    }
}

/// Sheet C: sheet A in version 2 with four parameters in its guards, of which each has its own coefficient. Its bodies
/// of 17, 18, 19 and 2 bytes lie at 22, 39, 57 and 76.
pub fn sheet_c() -> Sheet {
    let stays = [vec![at_most(1, 0, -20, [1, -2, 3, 4])], vec![]];
    let go = (0, vec![at_most(0, 1, -3, [0, 0, 0, -1])]);
    let parameters = [range(0, 10), range(-5, 5), range(7, 7), range(-3, 0)];
    along(&parameters, 1, &stays, &[0, 1], &[go])
}

/// Sheet C after a change.
pub fn c_with(change: impl Fn(&mut Sheet)) -> Sheet {
    let mut sheet = sheet_c();
    change(&mut sheet);
    sheet
}

/// A sheet of version 2 with ranges of those widths, from 0 on, one location without a limit, and an empty route.
pub fn of_widths(widths: &[i16]) -> Sheet {
    let parameters: Vec<Parameter> = widths.iter().map(|w| range(0, w - 1)).collect();
    in_version_2(along(&parameters, 1, &[vec![]], &[0], &[]))
}

/// How big a random sheet becomes at most.
#[derive(Clone, Copy)]
pub struct Size {
    pub locations: usize,
    pub transitions: usize,
    pub guards: usize,
    pub route: usize,
}

impl Size {
    pub const SMALL: Size = Size {
        locations: 3,
        transitions: 4,
        guards: 2,
        route: 5,
    };
    pub const MIDDLE: Size = Size {
        locations: 8,
        transitions: 10,
        guards: 4,
        route: 16,
    };
    /// Few guards, and transitions for long routes.
    pub const ROUTED: Size = Size {
        locations: 4,
        transitions: 14,
        guards: 1,
        route: MOST_ROUTE,
    };
    pub const LARGE: Size = Size {
        locations: MOST_LOCATIONS,
        transitions: MOST_TRANSITIONS,
        guards: MOST_GUARDS,
        route: MOST_ROUTE,
    };
}

/// A good sheet of that version up to that size.
pub fn random_sheet(random: &mut Random, version: u8, size: Size) -> Sheet {
    let parameters = random.below(parameters_of(version) + 1);
    let clocks = 1 + random.below(MOST_CLOCKS) as u8;
    let locations = 1 + random.below(size.locations);
    let transitions = random.below(size.transitions + 1);
    let counts = [parameters, locations, transitions];
    let mut sheet = random_filled(random, version, size, counts, clocks);
    fit(&mut sheet);
    sheet
}

/// A good sheet of the most locations and transitions, each with the most guards, and the longest
/// route that the transitions allow. In version 1 with three parameters it has up to 3,671 bytes, and
/// no good sheet of that version has more; one of version 2 would pass 4,096 bytes, and lacks guards.
pub fn biggest_sheet(random: &mut Random, version: u8, parameters: usize, clocks: u8) -> Sheet {
    let counts = [parameters, MOST_LOCATIONS, MOST_TRANSITIONS];
    let mut sheet = random_filled(random, version, Size::LARGE, counts, clocks);
    for location in &mut sheet.locations {
        fill(random, &mut location.invariants, parameters, clocks);
    }
    for transition in &mut sheet.transitions {
        fill(random, &mut transition.guards, parameters, clocks);
    }
    sheet.transitions[0].from = 0;
    sheet.transitions[1].to = 0;
    sheet.transitions[1].from = sheet.transitions[0].to;
    sheet.route = random_route(random, &sheet.transitions, MOST_ROUTE);
    fit(&mut sheet);
    sheet
}

/// Takes guards from the sheet's last transitions until its file has at most 4,096 bytes.
fn fit(sheet: &mut Sheet) {
    let over = writer::file(sheet).len().saturating_sub(MOST_BYTES);
    let guard = 6 + 2 * parameters_of(sheet.version);
    let lists = sheet.transitions.iter_mut().rev().map(|t| &mut t.guards);
    let mut left = over.div_ceil(guard);
    for list in lists {
        let some = left.min(list.len());
        list.truncate(list.len() - some);
        left -= some;
    }
}

/// Halves the widest range until refusal 16 is not met. Three ranges never meet it.
pub(crate) fn narrow(parameters: &mut [Parameter]) {
    while valuations(parameters) > MOST_VALUATIONS {
        let widest = parameters.iter_mut().max_by_key(|p| p.width());
        let p = widest.expect("there are four");
        p.highest -= (p.highest - p.lowest) / 2;
    }
}

/// A sheet with those counts of parameters, locations and transitions, good but for the size of its file.
fn random_filled(
    random: &mut Random,
    version: u8,
    size: Size,
    counts: [usize; 3],
    clocks: u8,
) -> Sheet {
    let [parameters, locations, transitions] = counts;
    let mut sheet = Sheet {
        version,
        parameters: (0..parameters).map(|_| random_range(random)).collect(),
        clocks,
        locations: Vec::new(),
        transitions: Vec::new(),
        route: Vec::new(),
    };
    narrow(&mut sheet.parameters);
    for _ in 0..locations {
        let invariants = random_guards(random, size.guards, parameters, clocks);
        sheet.locations.push(Location { invariants });
    }
    for _ in 0..transitions {
        let guards = random_guards(random, size.guards, parameters, clocks);
        sheet.transitions.push(Transition {
            from: random.below(locations) as u8,
            to: random.below(locations) as u8,
            resets: random.below(1 << clocks) as u8,
            guards,
        });
    }
    let length = random.below(size.route + 1);
    sheet.route = random_route(random, &sheet.transitions, length);
    sheet
}

/// A range by itself; one in four lies at an end of what is allowed.
pub(crate) fn random_range(random: &mut Random) -> Parameter {
    let width = random.from_to(0, 63);
    let lowest = match random.below(8) {
        0 => -1000,
        1 => 1000 - width,
        _ => random.from_to(-1000, 1000 - width),
    };
    range(lowest, lowest + width)
}

/// Up to that many good guards.
fn random_guards(random: &mut Random, most: usize, parameters: usize, clocks: u8) -> Vec<Guard> {
    let count = random.below(most + 1);
    (0..count)
        .map(|_| random_guard(random, parameters, clocks))
        .collect()
}

/// Adds good guards to a list until it has as many as it may.
fn fill(random: &mut Random, list: &mut Vec<Guard>, parameters: usize, clocks: u8) {
    while list.len() < MOST_GUARDS {
        list.push(random_guard(random, parameters, clocks));
    }
}

/// A good guard.
fn random_guard(random: &mut Random, parameters: usize, clocks: u8) -> Guard {
    let (a, b) = random_clocks(random, clocks);
    let mut guard = at_most(a, b, random_number(random), [0; 4]);
    guard.strict = random.once_in(2);
    for coefficient in &mut guard.coefficients[..parameters] {
        *coefficient = random_number(random);
    }
    guard
}

/// A guard's clocks a and b, of which one is 0, for a sheet with that many clocks.
pub(crate) fn random_clocks(random: &mut Random, clocks: u8) -> (u8, u8) {
    let clock = 1 + random.below(usize::from(clocks)) as u8;
    if random.once_in(2) {
        (clock, 0)
    } else {
        (0, clock)
    }
}

/// A number from -1,000 to 1,000, small in half of the cases.
fn random_number(random: &mut Random) -> i16 {
    match random.below(8) {
        0 => -1000,
        1 => 1000,
        2 | 3 => random.from_to(-1000, 1000),
        _ => random.from_to(-3, 3),
    }
}

/// A route of that length, or a shorter one that ends where no transition leads on.
fn random_route(random: &mut Random, transitions: &[Transition], length: usize) -> Vec<u8> {
    let mut route = Vec::new();
    let mut at = 0;
    for _ in 0..length {
        let next: Vec<usize> = (0..transitions.len())
            .filter(|&k| transitions[k].from == at)
            .collect();
        if next.is_empty() {
            break;
        }
        let number = next[random.below(next.len())];
        route.push(number as u8);
        at = transitions[number].to;
    }
    route
}
