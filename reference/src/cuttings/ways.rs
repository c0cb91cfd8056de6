//! A guard a second time: test by test, as paper 01 words it. Where a test is not settled, both parts go on
//! from there, the whole outcome of the yes part before the no part's. Each valuation answers by itself, in
//! weights; no inequality is written. The counts of tests are held to this, and so are whole routes (`sizes`).

use super::{alone, answer, families};
use crate::bound::{Bound, Expr, Test};
use crate::family::records;
use crate::planned::{crossed, planned, random_shape};
use crate::random::Random;
use crate::sheet::{read, Guard, Sheet, MOST_CLOCKS};
use crate::sweep::SIDE;
use crate::valuations::{all, Valuation};
use crate::windows::{cut, cut_one, Bounds, Counted, Limits, Zone};

/// A part of a zone on its way: its valuations, its matrix so far, how many inequalities it would have, and
/// how many tests the guard has asked.
#[derive(Clone)]
pub(super) struct Way {
    pub valuations: Vec<Valuation>,
    pub bounds: Bounds,
    pub inequalities: usize,
    pub tests: usize,
}

impl Way {
    /// A way before any guard.
    pub fn new(valuations: Vec<Valuation>, bounds: Bounds, inequalities: usize) -> Way {
        Way {
            valuations,
            bounds,
            inequalities,
            tests: 0,
        }
    }

    /// The way has the valuations and the matrix of a zone, and would have as many inequalities.
    pub fn agrees(&self, zone: &Zone) {
        assert_eq!(self.bounds, zone.bounds);
        assert_eq!(self.inequalities, zone.inequalities.len());
        assert_eq!(self.valuations[0], zone.first);
        assert!(self.valuations.iter().all(|&v| zone.holds(v)));
    }
}

/// The largest sizes of a number that were met: of entries, of sums, and of tests.
#[derive(Clone, Copy, Debug, Default, PartialEq, Eq)]
pub(super) struct Sizes {
    pub entry: i64,
    pub sum: i64,
    pub test: i64,
}

impl Sizes {
    /// The larger of each.
    pub fn or(self, other: Sizes) -> Sizes {
        Sizes {
            entry: self.entry.max(other.entry),
            sum: self.sum.max(other.sum),
            test: self.test.max(other.test),
        }
    }
}

/// The size of the largest number of an expression.
pub(super) fn size(e: Expr) -> i64 {
    e.into_iter().map(i64::abs).max().unwrap_or(0)
}

/// The ways that a guard lists of zones, in order, or refusal 7 or 8. `sizes` meets those of its sums and tests.
pub(super) fn guarded(
    clocks: u8,
    zones: Vec<Way>,
    guard: &Guard,
    sizes: &mut Sizes,
) -> Result<Vec<Way>, u8> {
    let mut asking = Asking {
        last: usize::from(clocks),
        i: usize::from(guard.a),
        j: usize::from(guard.b),
        e: Bound::of(guard),
        old: [[Bound::ZERO; SIDE]; SIDE],
        sizes,
        listed: Vec::new(),
    };
    for zone in zones {
        asking.old = zone.bounds;
        asking.void(Way { tests: 0, ..zone })?;
    }
    Ok(asking.listed)
}

/// A guard i - j with bound e, the clocks' last number, the matrix that it finds, the sizes that were met, and
/// what is listed.
struct Asking<'a> {
    last: usize,
    i: usize,
    j: usize,
    e: Bound,
    old: Bounds,
    sizes: &'a mut Sizes,
    listed: Vec<Way>,
}

/// A way's two parts, of which one may be missing.
type Parts = (Option<Way>, Option<Way>);

impl Asking<'_> {
    /// A sum.
    fn sum(&mut self, a: Bound, b: Bound) -> Bound {
        let sum = a.sum(b);
        if let Bound::At { expr, .. } = sum {
            self.sizes.sum = self.sizes.sum.max(size(expr));
        }
        sum
    }

    /// The yes part and the no part of the question whether a is tighter than b, or refusal 8.
    fn asked(&mut self, mut way: Way, a: Bound, b: Bound) -> Result<Parts, u8> {
        if let Test::Asked(test) = a.tighter(b) {
            self.sizes.test = self.sizes.test.max(size(test));
        }
        let bounds = a != Bound::None && b != Bound::None;
        way.tests += usize::from(bounds);
        let tighter = |v: &Valuation| a.at(*v).tighter(b.at(*v));
        let (yes, no): (Vec<_>, Vec<_>) = way.valuations.drain(..).partition(tighter);
        let open = !yes.is_empty() && !no.is_empty();
        if open && way.inequalities == Limits::PAPER.inequalities {
            return Err(8);
        }
        way.inequalities += usize::from(open);
        let part = |valuations: Vec<Valuation>| {
            let some = !valuations.is_empty();
            let way = way.clone();
            some.then_some(Way { valuations, ..way })
        };
        Ok((part(yes), part(no)))
    }

    /// Rule (1): the yes part is cut.
    fn void(&mut self, way: Way) -> Result<(), u8> {
        let around = self.sum(self.e, self.old[self.j][self.i]);
        let (_, no) = self.asked(way, around, Bound::ZERO)?;
        no.map_or(Ok(()), |way| self.tight(way))
    }

    /// Rule (2): the no part stays.
    fn tight(&mut self, way: Way) -> Result<(), u8> {
        let (yes, no) = self.asked(way, self.e, self.old[self.i][self.j])?;
        yes.map_or(Ok(()), |way| self.entry(0, 0, way))?;
        no.map_or(Ok(()), |way| self.list(way))
    }

    /// Rule (3) from entry (k, l) on, in row order.
    fn entry(&mut self, k: usize, l: usize, way: Way) -> Result<(), u8> {
        if k > self.last {
            return self.list(way);
        }
        if l > self.last {
            return self.entry(k + 1, 0, way);
        }
        let onward = self.sum(self.e, self.old[self.j][l]);
        let through = self.sum(self.old[k][self.i], onward);
        let (yes, no) = self.asked(way, through, self.old[k][l])?;
        if let Some(mut way) = yes {
            way.bounds[k][l] = through;
            self.entry(k, l + 1, way)?;
        }
        no.map_or(Ok(()), |way| self.entry(k, l + 1, way))
    }

    /// Lists a way, or refusal 7.
    fn list(&mut self, way: Way) -> Result<(), u8> {
        if self.listed.len() == Limits::PAPER.zones {
            return Err(7);
        }
        self.listed.push(way);
        Ok(())
    }
}

/// What was seen of one guard on one zone: how often it was put, refused, and left several zones, and how
/// often a count was the ceiling, by the number of clocks.
#[derive(Debug, Default)]
struct Seen {
    put: usize,
    refused: usize,
    several: usize,
    met: [usize; MOST_CLOCKS + 1],
}

impl Seen {
    /// Puts one guard to one zone: it is refused by the same number as here, or lists as many zones.
    fn put(&mut self, sheet: &Sheet, zone: &Zone, guard: &Guard) {
        self.put += 1;
        let found = cut_one(sheet, zone, guard, 0, Limits::PAPER);
        let mut valuations = all(&sheet.parameters);
        valuations.retain(|&v| zone.holds(v));
        let whole = Way::new(valuations, zone.bounds, zone.inequalities.len());
        let again = guarded(sheet.clocks, vec![whole], guard, &mut Sizes::default());
        match (found, again) {
            (Ok(found), Ok(again)) => {
                assert_eq!(found.len(), again.len());
                self.several += usize::from(found.len() > 1);
                for (counted, way) in found.iter().zip(&again) {
                    self.same(sheet, zone, guard, counted, way);
                }
            }
            (found, again) => {
                assert_eq!(found.map_err(|refusal| refusal.number).err(), again.err());
                self.refused += 1;
            }
        }
    }

    /// A zone that is listed has the valuations, the matrix and the count of its way. The count is one of two
    /// that follow from what is none, and not above the ceiling; the zone has an inequality more for each
    /// open test.
    fn same(&mut self, sheet: &Sheet, zone: &Zone, guard: &Guard, counted: &Counted, way: &Way) {
        assert_eq!(counted.tests, way.tests);
        way.agrees(&counted.zone);
        let added = counted.zone.inequalities.len() - zone.inequalities.len();
        let [kept, pushed] = by_nones(sheet, zone, guard);
        assert!([kept, pushed].contains(&counted.tests));
        let side = usize::from(sheet.clocks) + 1;
        let ceiling = side * side + 2;
        assert!(added <= counted.tests && counted.tests <= ceiling);
        self.met[usize::from(sheet.clocks)] += usize::from(counted.tests == ceiling);
    }
}

/// The count of a zone that rule (2) keeps, and of one whose entries are asked.
fn by_nones(sheet: &Sheet, zone: &Zone, guard: &Guard) -> [usize; 2] {
    let bound = |k: usize, l: usize| zone.bounds[k][l] != Bound::None;
    let [i, j] = [guard.a, guard.b].map(usize::from);
    let kept = usize::from(bound(j, i)) + usize::from(bound(i, j));
    let clocks = 0..=usize::from(sheet.clocks);
    let entries = clocks
        .clone()
        .flat_map(|k| clocks.clone().map(move |l| (k, l)));
    let asked = entries.filter(|&(k, l)| bound(k, i) && bound(j, l) && bound(k, l));
    [kept, kept + asked.count()]
}

/// The counts that are stored agree with a second way of counting. Each ceiling is met, 7 and 8 refuse, and
/// many guards leave several zones.
#[test]
fn stored_counts() {
    let mut seen = Seen::default();
    for record in records(&families()) {
        let Ok(found) = answer(record) else { continue };
        let sheet = read(&record.file).unwrap();
        for zone in &found.zones {
            for guard in alone::guards(&sheet) {
                seen.put(&sheet, zone, guard);
            }
        }
    }
    assert!(seen.met[1..].iter().all(|&count| count > 0), "{seen:?}");
    assert!(seen.refused > 4 && seen.several > 1000, "{seen:?}");
}

/// So do those of all the guards of random sheets, wherever they stand, on all their zones.
#[test]
fn random_counts() {
    let random = &mut Random::new(41);
    let mut seen = Seen::default();
    for n in 0..800 {
        let (version, parameters, width) = [(1, 1, 63), (1, 2, 16), (1, 3, 7), (2, 4, 4)][n % 4];
        let mut shape = random_shape(random, 6, 1 + n % 6, width);
        shape.version = version;
        shape.parameters = parameters;
        let drawn = if n % 5 == 0 { planned } else { crossed };
        let mut sheet = drawn(random, shape).sheet;
        let Ok(found) = cut(&sheet, Limits::PAPER) else {
            continue;
        };
        let guards: Vec<Guard> = sheet.guards_mut().flat_map(|list| list.clone()).collect();
        for zone in &found.zones {
            for guard in &guards {
                seen.put(&sheet, zone, guard);
            }
        }
    }
    assert!(seen.met[1..].iter().all(|&count| count > 0), "{seen:?}");
    assert!(seen.put > 10_000 && seen.several > 1000, "{seen:?}");
}
