// Families of sheets to measure.
use reference::planned::{planned, Planned, Shape};
use reference::random::Random;
use reference::samples::{at_most, location, of_widths, range, transition};
use reference::sheet::{Guard, Sheet, MOST_BYTES, MOST_GUARDS, MOST_LOCATIONS, MOST_ROUTE, MOST_TRANSITIONS};
use reference::valuations::Valuation;
use reference::writer::file;

// A file and the numbers to put in.
#[derive(Clone)]
pub struct Input {
    pub file: Vec<u8>,
    pub valuation: Valuation,
}

// The limit a - b, at most or below that value once the numbers are put in. Its coefficients are random, but for the
// fourth, since the sheets are of version 1.
fn limit(random: &mut Random, a: u8, b: u8, value: i64, v: Valuation) -> Guard {
    let [p, q, r] = [0; 3].map(|_| random.within(-3, 3) as i16);
    let coefficients = [p, q, r, 0];
    let sum: i64 = coefficients.iter().zip(v).map(|(&c, x)| c as i64 * x).sum();
    let mut guard = at_most(a, b, (value - sum) as i16, coefficients);
    guard.strict = random.within(0, 1) == 1;
    guard
}

fn upper(random: &mut Random, value: i64, v: Valuation) -> Guard {
    let clock = random.within(1, 4) as u8;
    limit(random, clock, 0, value, v)
}

fn lower(random: &mut Random, value: i64, v: Valuation) -> Guard {
    let clock = random.within(1, 4) as u8;
    limit(random, 0, clock, -value, v)
}

// A sheet of version 1 with the most of everything, six limits everywhere. The route takes transitions 0 to 31 in order, and
// passes locations 0 to 15 twice, so that no transition comes again. `stay` and `leave` give the limits of a
// location and of a transition, and `resets` the clocks that a transition resets.
fn full(
    random: &mut Random,
    stay: impl Fn(&mut Random, Valuation) -> Vec<Guard>,
    leave: impl Fn(&mut Random, usize, Valuation) -> Vec<Guard>,
    resets: impl Fn(&mut Random) -> u8,
) -> Planned {
    let lows = [0; 3].map(|_| random.within(-9, 0));
    let [p, q, r] = lows.map(|low| low + random.within(0, 9));
    let valuation = [p, q, r, 0];
    let mut sheet = Sheet {
        version: 1,
        parameters: lows.map(|low| range(low as i16, low as i16 + 63)).to_vec(),
        clocks: 4,
        locations: Vec::new(),
        transitions: Vec::new(),
        route: (0..MOST_ROUTE as u8).collect(),
    };
    for _ in 0..MOST_LOCATIONS {
        sheet.locations.push(location(&stay(random, valuation)));
    }
    for k in 0..MOST_TRANSITIONS {
        let (from, to) = (k % MOST_LOCATIONS, (k + 1) % MOST_LOCATIONS);
        let guards = leave(random, k, valuation);
        sheet.transitions.push(transition(from as u8, to as u8, resets(random), &guards));
    }
    Planned { sheet, valuation }
}

// Wide limits: six of 500 to 800 above, and of 9 to 1 below zero. The run that never waits meets them all.
fn wide(random: &mut Random, v: Valuation) -> Vec<Guard> {
    let mut list = Vec::new();
    for _ in 0..MOST_GUARDS {
        let guard = match random.within(0, 1) {
            0 => {
                let value = random.within(500, 800);
                upper(random, value, v)
            }
            _ => {
                let value = random.within(-9, -1);
                lower(random, value, v)
            }
        };
        list.push(guard);
    }
    list
}

// Wide limits everywhere, some clocks reset.
fn loose(random: &mut Random) -> Planned {
    full(random, wide, |random, _, v| wide(random, v), |random| random.within(0, 15) as u8)
}

// Every limit tightens, but for arrivals, where all clocks are 0: every transition resets them all. They run together
// then, so that whichever clock a limit is about, the upper limits fall from 900 in steps of 10, and the lower ones, which
// only transitions have, rise from 2 in steps of 2.
fn tight_together(random: &mut Random) -> Planned {
    let stay = |random: &mut Random, v: Valuation| (0..6).map(|k| upper(random, 900 - 10 * k, v)).collect();
    let leave = |random: &mut Random, _: usize, v: Valuation| {
        let mut list = Vec::new();
        for k in 0..3 {
            list.push(upper(random, 840 - 10 * k, v));
            list.push(lower(random, 2 * (k + 1), v));
        }
        list
    };
    full(random, stay, leave, |_| 15)
}

// Every limit tightens, nothing is reset. A wait takes the upper limits away, so that those of a location tighten
// at each visit; lower limits stay, so that only transitions have them, and rise along the route.
fn tight_apart(random: &mut Random) -> Planned {
    let stay = |random: &mut Random, v: Valuation| (0..6).map(|k| upper(random, 900 - 10 * k, v)).collect();
    let leave = |random: &mut Random, number: usize, v: Valuation| {
        let mut list = Vec::new();
        for k in 0..3 {
            list.push(upper(random, 800 - 10 * k, v));
            list.push(lower(random, 2 * (3 * number as i64 + k + 1), v));
        }
        list
    };
    full(random, stay, leave, |_| 0)
}

// The same route cut to that length.
fn cut(plan: &Planned, moves: usize) -> Planned {
    let mut plan = plan.clone();
    plan.sheet.route.truncate(moves);
    plan
}

// The first location forbids the start: no run.
fn void_early(plan: &Planned) -> Planned {
    let mut plan = plan.clone();
    plan.sheet.locations[0].invariants[0] = at_most(1, 0, -1, [0; 4]);
    plan
}

// The last move of the route has a limit, its last, that no run meets.
fn void_late(plan: &Planned) -> Planned {
    let mut plan = plan.clone();
    plan.sheet.transitions[MOST_TRANSITIONS - 1].guards[MOST_GUARDS - 1] = at_most(1, 0, -1, [0; 4]);
    plan
}

// The sheet with all limits and resets on one clock.
fn one_clock(plan: &Planned) -> Planned {
    let mut plan = plan.clone();
    plan.sheet.clocks = 1;
    plan.sheet.transitions.iter_mut().for_each(|x| x.resets &= 1);
    for guard in plan.sheet.guards_mut().flatten() {
        guard.a = guard.a.min(1);
        guard.b = guard.b.min(1);
    }
    plan
}

// The sheet without limits.
fn unlimited(plan: &Planned) -> Planned {
    let mut plan = plan.clone();
    plan.sheet.guards_mut().for_each(Vec::clear);
    plan
}

// A sheet around a run, of the reference's own making: up to six limits at each place. Of version 2 it has four
// parameters, and fewer locations and transitions, so that its file is not too long.
fn around_a_run(random: &mut Random, version: u8) -> Planned {
    let (parameters, locations, transitions) = if version == 2 { (4, 12, 24) } else { (3, 16, 32) };
    let shape = Shape {
        version,
        parameters,
        width: 63,
        clocks: 4,
        locations,
        transitions,
        moves: 32,
        guards: 6,
    };
    planned(random, shape)
}

// A sheet with nothing in it but one location.
fn smallest() -> Planned {
    let locations = vec![location(&[])];
    let sheet = Sheet { version: 1, parameters: vec![], clocks: 1, locations, transitions: vec![], route: vec![] };
    Planned { sheet, valuation: [0; 4] }
}

fn input(plan: &Planned) -> Input {
    Input { file: file(&plan.sheet), valuation: plan.valuation }
}

// The inputs with their files changed.
fn changed(inputs: &[Input], change: impl Fn(&mut Vec<u8>)) -> Vec<Input> {
    let mut inputs = inputs.to_vec();
    inputs.iter_mut().for_each(|x| change(&mut x.file));
    inputs
}

pub struct Family {
    pub name: &'static str,
    // The moves of the route.
    pub moves: usize,
    // The answer that each input has to get, if there is one.
    pub answer: Option<i64>,
    // Whether the time limit is about the family: 32 moves, and six limits everywhere, that leave a run.
    pub judged: bool,
    pub inputs: Vec<Input>,
}

pub const LENGTHS: [usize; 7] = [0, 1, 2, 4, 8, 16, 32];
pub const SMALLEST: &str = "smallest sheet";

// Sheets of one kind with their routes cut to the lengths.
fn lengths(all: &mut Vec<Family>, name: &'static str, plans: &[Planned]) {
    for moves in LENGTHS {
        let inputs = plans.iter().map(|plan| input(&cut(plan, moves))).collect();
        all.push(Family { name, moves, answer: Some(0), judged: moves == 32, inputs });
    }
}

// All families, with n sheets each where they are random.
pub fn all(n: usize) -> Vec<Family> {
    let random = &mut Random::new(2025);
    let wides: Vec<Planned> = (0..n).map(|_| loose(random)).collect();
    let together: Vec<Planned> = (0..n).map(|_| tight_together(random)).collect();
    let apart: Vec<Planned> = (0..n).map(|_| tight_apart(random)).collect();
    let random = &mut Random::new(2025);
    let planned: Vec<Planned> = (0..n).map(|_| around_a_run(random, 1)).collect();
    let fours: Vec<Planned> = (0..n).map(|_| around_a_run(random, 2)).collect();
    let mut all = Vec::new();
    lengths(&mut all, "6 limits, wide", &wides);
    lengths(&mut all, "6 limits, all tighten, resets", &together);
    lengths(&mut all, "6 limits, all tighten, no resets", &apart);
    let mut push = |name, moves, answer, inputs| all.push(Family { name, moves, answer, judged: false, inputs });
    push("6 limits, all tighten, one clock", 32, Some(0), together.iter().map(|plan| input(&one_clock(plan))).collect());
    push("no limits", 32, Some(0), wides.iter().map(|plan| input(&unlimited(plan))).collect());
    push("up to 6 limits around a run", 32, None, planned.iter().map(input).collect());
    push("the same, four parameters", 32, None, fours.iter().map(input).collect());
    push(SMALLEST, 0, Some(0), vec![input(&smallest())]);
    push("void at the first limit", 32, Some(1), wides.iter().map(|plan| input(&void_early(plan))).collect());
    push("void at the last move", 32, Some(1), wides.iter().map(|plan| input(&void_late(plan))).collect());
    let good: Vec<Input> = wides.iter().map(input).collect();
    push("refused, 2: short", 32, Some(2), changed(&good, |file| file.truncate(21)));
    push("refused, 2: long", 32, Some(2), changed(&good, |file| file.resize(MOST_BYTES + 1, 0)));
    push("refused, 3: version", 32, Some(3), changed(&good, |file| file[0] = 3));
    push("refused, 3: a byte too many", 32, Some(3), changed(&good, |file| file.push(0)));
    push("refused, 4: first field", 32, Some(4), changed(&good, |file| file[22] = 4));
    push("refused, 4: last field", 32, Some(4), changed(&good, |file| *file.last_mut().expect("a file") = 32));
    push("refused, 5: first move", 32, Some(5), changed(&good, |file| {
        let first = file.len() - MOST_ROUTE;
        file[first] = 1;
    }));
    push("refused, 5: last move", 32, Some(5), changed(&good, |file| *file.last_mut().expect("a file") = 0));
    let mut outside = good;
    outside.iter_mut().for_each(|x| x.valuation[2] = 64);
    push("refused, 6: third number", 32, Some(6), outside);
    let product = of_widths(&[64, 64, 64, 2]);
    push("refused, 16", 0, Some(16), vec![Input { file: file(&product), valuation: [0; 4] }]);
    all
}
