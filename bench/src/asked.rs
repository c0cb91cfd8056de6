// The tests that Windows asks along the route of a sheet: the ranges are cut once more by the rules of the paper, each test
// being settled by the proved search.
use crate::searches;
use crate::system::{Expr, Ranges, System, Valuation, PARAMETERS};
use reference::bound::{Bound, Test};
use reference::sheet::{Guard, Sheet};
use reference::sweep::SIDE;
use reference::windows::Bounds;

// One side of a test: the zone's inequalities and the test or its opposite; and the zone's first valuation.
pub struct Asked {
    pub system: System,
    pub guess: Valuation,
}

// A zone at work. Of the guard that it is worked with, so many tests were answered before the zone was parted off.
#[derive(Clone)]
struct Zone {
    inequalities: Vec<Expr>,
    first: Valuation,
    bounds: Bounds,
    known: usize,
}

// A test that is true of some valuations of a zone and not of others.
struct Open(Expr);

// The work along a route: every `step`-th test is kept.
struct Cutting {
    clocks: usize,
    ranges: Ranges,
    zones: Vec<Zone>,
    tests: usize,
    step: usize,
    asked: Vec<Asked>,
}

// The opposite of e >= 0.
fn opposite(e: Expr) -> Expr {
    let mut opposite = e.map(|x| -x);
    opposite[0] -= 1;
    opposite
}

impl Cutting {
    // A zone's system with one more inequality.
    fn with(&self, zone: &Zone, e: Expr) -> System {
        System { ranges: self.ranges, list: [&zone.inequalities[..], &[e]].concat() }
    }

    // The answer to a test, if all valuations of the zone give the same one. `number` counts the tests of the guard.
    fn settled(&mut self, zone: &Zone, number: &mut usize, test: Test) -> Result<bool, Open> {
        let e = match test {
            Test::Known(answer) => return Ok(answer),
            Test::Asked(e) => e.map(|x| x as i32),
        };
        let sides = [e, opposite(e)].map(|side| self.with(zone, side));
        let [yes, no] = sides.each_ref().map(|side| searches::some(&side.input(), zone.first) == 1);
        *number += 1;
        if *number > zone.known {
            self.tests += 1;
            if self.tests % self.step == 0 {
                self.asked.extend(sides.map(|system| Asked { system, guess: zone.first }));
            }
        }
        if yes && no { Err(Open(e)) } else { Ok(yes) }
    }

    // The zone after a guard, or nothing if no part of it is left: rules (1), (2) and (3) of the paper.
    fn guarded(&mut self, zone: &Zone, guard: &Guard, number: &mut usize) -> Result<Option<Zone>, Open> {
        let (i, j, e) = (guard.a as usize, guard.b as usize, Bound::of(guard));
        let m = &zone.bounds;
        if self.settled(zone, number, e.sum(m[j][i]).tighter(Bound::ZERO))? {
            return Ok(None);
        }
        let mut next = Zone { known: 0, ..zone.clone() };
        if !self.settled(zone, number, e.tighter(m[i][j]))? {
            return Ok(Some(next));
        }
        for k in 0..=self.clocks {
            for l in 0..=self.clocks {
                let through = m[k][i].sum(e).sum(m[j][l]);
                if self.settled(zone, number, through.tighter(m[k][l]))? {
                    next.bounds[k][l] = through;
                }
            }
        }
        Ok(Some(next))
    }

    // The part of a zone that meets one more inequality.
    fn part(&self, zone: &Zone, e: Expr, known: usize) -> Zone {
        let system = self.with(zone, e);
        let first = searches::whole_first(&system.input()).expect("an open test has valuations on both sides");
        Zone { inequalities: system.list, first, bounds: zone.bounds, known }
    }

    // One guard over all zones in order. Zones that are still to be worked wait in a pile, the next one on top.
    fn guard(&mut self, guard: &Guard) {
        let mut pile: Vec<Zone> = self.zones.drain(..).rev().collect();
        while let Some(zone) = pile.pop() {
            let mut number = 0;
            match self.guarded(&zone, guard, &mut number) {
                Ok(next) => self.zones.extend(next),
                Err(Open(e)) => pile.extend([opposite(e), e].map(|side| self.part(&zone, side, number))),
            }
        }
    }

    // Guards in order, on arrival.
    fn arrive(&mut self, guards: &[Guard]) {
        guards.iter().for_each(|guard| self.guard(guard));
    }

    // A wait, and the guards at its end.
    fn stay(&mut self, guards: &[Guard]) {
        for zone in &mut self.zones {
            zone.bounds[1..=self.clocks].iter_mut().for_each(|row| row[0] = Bound::None);
        }
        self.arrive(guards);
    }

    // Resets in rising order.
    fn reset(&mut self, bits: u8) {
        for zone in &mut self.zones {
            let m = &mut zone.bounds;
            for r in (1..=self.clocks).filter(|r| bits >> (r - 1) & 1 == 1) {
                for j in (0..=self.clocks).filter(|&j| j != r) {
                    m[r][j] = m[0][j];
                    m[j][r] = m[j][0];
                }
            }
        }
    }
}

// The cutting of a sheet that keeps every `step`-th test.
fn cut(sheet: &Sheet, step: usize) -> Cutting {
    let mut ranges = [(0, 0); PARAMETERS];
    for (range, p) in ranges.iter_mut().zip(&sheet.parameters) {
        *range = (p.lowest, p.highest);
    }
    let whole = Zone { inequalities: vec![], first: ranges.map(|range| range.0), bounds: [[Bound::ZERO; SIDE]; SIDE], known: 0 };
    let mut work = Cutting { clocks: sheet.clocks as usize, ranges, zones: vec![whole], tests: 0, step, asked: vec![] };
    let mut here = &sheet.locations[0].invariants;
    work.arrive(here);
    for &number in &sheet.route {
        let transition = &sheet.transitions[number as usize];
        work.stay(here);
        work.arrive(&transition.guards);
        work.reset(transition.resets);
        here = &sheet.locations[transition.to as usize].invariants;
        work.arrive(here);
    }
    work.stay(here);
    work
}

// The number of pieces of a sheet that Windows does not refuse.
pub fn pieces(sheet: &Sheet) -> usize {
    cut(sheet, usize::MAX).zones.len()
}

// Both sides of up to so many tests of a sheet, which lie evenly along its cutting, and the number of pieces.
pub fn sample(sheet: &Sheet, tests: usize) -> (Vec<Asked>, usize) {
    let step = cut(sheet, usize::MAX).tests.div_ceil(tests).max(1);
    let work = cut(sheet, step);
    (work.asked, work.zones.len())
}
