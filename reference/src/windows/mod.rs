//! Windows: the ranges cut into zones (paper 01, "Cutting the ranges"), and refusals 1 to 5, 7, 8 and 16.
//!
//! A zone at work carries the list of all its valuations, so that a test is settled by putting each of
//! them in. Where a test is not settled, the zone is parted in two lists and the guard is worked anew
//! on each part, from its first rule on: what was asked before is settled for the part as well.

mod part;

use crate::bound::{value, Bound, Expr};
use crate::sheet::{read, Guard, Refusal, Sheet};
use crate::sweep::SIDE;
use crate::valuations::{all, Valuation};
use part::{Limit, Open, Part};

/// A matrix of bounds; entry (i, j) bounds clock i - clock j.
pub type Bounds = [[Bound; SIDE]; SIDE];

/// A zone (the paper's piece): the first of its valuations, comparing parameter 1, then 2 and so on, smaller
/// first; the inequalities, each an expression that is at least 0; and the matrix.
#[derive(Clone, Debug, PartialEq, Eq)]
pub struct Zone {
    pub first: Valuation,
    pub inequalities: Vec<Expr>,
    pub bounds: Bounds,
}

impl Zone {
    /// Whether the zone holds a valuation of the ranges.
    pub fn holds(&self, v: Valuation) -> bool {
        self.inequalities.iter().all(|&e| value(e, v) >= 0)
    }
}

/// A zone that one guard lists, and how many tests were asked on the way to it, from the guard's first test
/// on: every test of "tighter" that is asked counts, settled or split, and an answer with no test does not.
#[derive(Clone, Debug, PartialEq, Eq)]
pub struct Counted {
    pub zone: Zone,
    pub tests: usize,
}

/// The zones of a sheet in order, and how many valuations have a run and how many have none.
#[derive(Clone, Debug, PartialEq, Eq)]
pub struct Windows {
    pub zones: Vec<Zone>,
    pub kept: usize,
    pub cut: usize,
}

/// What Windows answers.
pub type Outcome = Result<Windows, Refusal>;

/// The least places of a table, and the most zones that a guard lists.
pub const PLACES: usize = 32;
/// The most inequalities of a zone.
pub const MOST_INEQUALITIES: usize = 24;

/// What refusals 7 and 8 are judged by: the most zones that a guard lists, and the most inequalities of a
/// zone.
#[derive(Clone, Copy, Debug)]
pub struct Limits {
    pub zones: usize,
    pub inequalities: usize,
}

impl Limits {
    /// Those of the paper.
    pub const PAPER: Limits = Limits {
        zones: PLACES,
        inequalities: MOST_INEQUALITIES,
    };
}

/// What Windows answers to a file, with a table of that many places to fill.
pub fn windows(file: &[u8], places: usize) -> Outcome {
    if places < PLACES {
        return Err(Refusal {
            number: 1,
            place: 0,
        });
    }
    cut(&read(file)?, Limits::PAPER)
}

/// The ranges of a sheet cut into zones, or the first of refusals 7 and 8 by those limits. A
/// location's invariants go in at the start or on arrival, and again after the wait; a move counts
/// as made once its resets are done (paper 02, request (b)).
pub fn cut(sheet: &Sheet, limits: Limits) -> Outcome {
    let whole = Part::new(
        all(&sheet.parameters),
        Vec::new(),
        [[Bound::ZERO; SIDE]; SIDE],
    );
    let mut cutting = Cutting::new(sheet.clocks, whole, 0, limits);
    let mut at = 0;
    cutting.guards(&sheet.locations[at].invariants)?;
    for &number in &sheet.route {
        let transition = &sheet.transitions[usize::from(number)];
        cutting.stay(&sheet.locations[at].invariants)?;
        cutting.guards(&transition.guards)?;
        cutting.resets(transition.resets);
        cutting.visit += 1;
        at = usize::from(transition.to);
        cutting.guards(&sheet.locations[at].invariants)?;
    }
    cutting.stay(&sheet.locations[at].invariants)?;
    Ok(cutting.done())
}

/// What one guard leaves of one zone of a sheet at a visit: the zones that it lists in order, each with its
/// count of tests, or the first of refusals 7 and 8 by those limits (paper 02, request (j)). The zone
/// holds a valuation, as those do that Windows lists.
pub fn cut_one(
    sheet: &Sheet,
    zone: &Zone,
    guard: &Guard,
    visit: usize,
    limits: Limits,
) -> Result<Vec<Counted>, Refusal> {
    let mut held = all(&sheet.parameters);
    held.retain(|&v| zone.holds(v));
    let part = Part::new(held, zone.inequalities.clone(), zone.bounds);
    let mut cutting = Cutting::new(sheet.clocks, part, visit, limits);
    cutting.guard(guard)?;
    let counted = |part: Part| Counted {
        tests: part.tests,
        zone: part.zone(),
    };
    Ok(cutting.parts.into_iter().map(counted).collect())
}

/// The work along a route: the zones so far in order, the moves made, and how many valuations are cut.
struct Cutting {
    clocks: usize,
    limits: Limits,
    parts: Vec<Part>,
    visit: usize,
    cut: usize,
}

impl Cutting {
    /// The work on one zone, at that visit.
    fn new(clocks: u8, part: Part, visit: usize, limits: Limits) -> Cutting {
        Cutting {
            clocks: usize::from(clocks),
            limits,
            parts: vec![part],
            visit,
            cut: 0,
        }
    }

    /// A wait, and the invariants that end it: entries (i, 0), i >= 1, become none.
    fn stay(&mut self, invariants: &[Guard]) -> Result<(), Refusal> {
        for part in &mut self.parts {
            for row in &mut part.bounds[1..=self.clocks] {
                row[0] = Bound::None;
            }
        }
        self.guards(invariants)
    }

    /// Guards in order, each over all zones.
    fn guards(&mut self, list: &[Guard]) -> Result<(), Refusal> {
        list.iter().try_for_each(|guard| self.guard(guard))
    }

    /// One guard over all zones in order. The parts that are still to be worked wait in a pile, the next
    /// one on top; of an open test the yes part comes to lie above the no part.
    fn guard(&mut self, guard: &Guard) -> Result<(), Refusal> {
        let limit = Limit::new(guard);
        let mut pile: Vec<Part> = self.parts.drain(..).rev().collect();
        while let Some(part) = pile.pop() {
            match part.guarded(self.clocks, &limit) {
                Ok(None) => self.cut += part.valuations.len(),
                Ok(Some((bounds, tests))) => self.list(Part {
                    bounds,
                    tests,
                    ..part
                })?,
                Err(Open(_)) if part.inequalities.len() == self.limits.inequalities => {
                    return self.refused(8)
                }
                Err(Open(e)) => {
                    let (yes, no) = part.parted(e);
                    pile.extend([no, yes]);
                }
            }
        }
        Ok(())
    }

    /// Lists a zone, unless it would be one too many (the paper's 33rd).
    fn list(&mut self, part: Part) -> Result<(), Refusal> {
        if self.parts.len() == self.limits.zones {
            return self.refused(7);
        }
        self.parts.push(part);
        Ok(())
    }

    /// A refusal at this visit.
    fn refused(&self, number: u8) -> Result<(), Refusal> {
        let place = self.visit;
        Err(Refusal { number, place })
    }

    /// Resets in rising order. Reset r: for j other than r, (r, j) takes (0, j) and (j, r) takes (j, 0).
    fn resets(&mut self, bits: u8) {
        for part in &mut self.parts {
            let m = &mut part.bounds;
            for r in (1..=self.clocks).filter(|r| bits >> (r - 1) & 1 == 1) {
                for j in (0..=self.clocks).filter(|&j| j != r) {
                    m[r][j] = m[0][j];
                    m[j][r] = m[j][0];
                }
            }
        }
    }

    /// What is answered at the end of the route.
    fn done(self) -> Windows {
        let kept = self.parts.iter().map(|part| part.valuations.len()).sum();
        Windows {
            zones: self.parts.into_iter().map(Part::zone).collect(),
            kept,
            cut: self.cut,
        }
    }
}
