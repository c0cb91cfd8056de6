//! A zone at work: how a test is settled, and what one guard does.

use super::{Bounds, Zone};
use crate::bound::{opposite, value, Bound, Expr, Test};
use crate::sheet::Guard;
use crate::valuations::Valuation;

/// A zone at work, with all the valuations that meet its inequalities, in order: there is one at least.
/// `tests` counts the tests that the last guard asked on the way to it.
pub(super) struct Part {
    pub inequalities: Vec<Expr>,
    pub valuations: Vec<Valuation>,
    pub bounds: Bounds,
    pub tests: usize,
}

/// A guard i - j with the bound e.
pub(super) struct Limit {
    i: usize,
    j: usize,
    e: Bound,
}

impl Limit {
    /// The guard as it stands in a sheet.
    pub fn new(guard: &Guard) -> Limit {
        Limit {
            i: usize::from(guard.a),
            j: usize::from(guard.b),
            e: Bound::of(guard),
        }
    }
}

/// A test that some of a part's valuations satisfy and others do not: the rules of a guard are left there.
pub(super) struct Open(pub Expr);

impl Part {
    /// A part before any guard.
    pub fn new(valuations: Vec<Valuation>, inequalities: Vec<Expr>, bounds: Bounds) -> Part {
        Part {
            inequalities,
            valuations,
            bounds,
            tests: 0,
        }
    }

    /// The zone of the part.
    pub fn zone(self) -> Zone {
        Zone {
            first: self.first(),
            inequalities: self.inequalities,
            bounds: self.bounds,
        }
    }

    /// The first of the valuations.
    fn first(&self) -> Valuation {
        self.valuations[0]
    }

    /// The answer to a test, if all the valuations give the same one.
    fn settled(&self, test: Test) -> Result<bool, Open> {
        let e = match test {
            Test::Known(answer) => return Ok(answer),
            Test::Asked(e) => e,
        };
        let answer = |v: Valuation| value(e, v) >= 0;
        let first = answer(self.first());
        if self.valuations.iter().all(|&v| answer(v) == first) {
            Ok(first)
        } else {
            Err(Open(e))
        }
    }

    /// The yes part and the no part of an inequality. The valuations stay in order.
    pub fn parted(self, e: Expr) -> (Part, Part) {
        let (satisfied, others) = self.valuations.iter().partition(|&&v| value(e, v) >= 0);
        let with = |e: Expr, valuations: Vec<Valuation>| {
            let inequalities = [&self.inequalities[..], &[e]].concat();
            Part::new(valuations, inequalities, self.bounds)
        };
        (with(e, satisfied), with(opposite(e), others))
    }

    /// The part's matrix after a guard and how many tests were asked, or nothing if the guard leaves no
    /// part: rules (1), (2) and (3) of the paper.
    ///
    /// A part that was parted off by a test of this guard is asked that test again, and those before it,
    /// and all of them are settled: a part that the guard leaves is asked each test of the way to it once.
    pub fn guarded(&self, clocks: usize, limit: &Limit) -> Result<Option<(Bounds, usize)>, Open> {
        let &Limit { i, j, e } = limit;
        let m = &self.bounds;
        let mut tests = 0;
        let mut tighter = |a: Bound, b: Bound| {
            let test = a.tighter(b);
            tests += usize::from(matches!(test, Test::Asked(_)));
            self.settled(test)
        };
        if tighter(e.sum(m[j][i]), Bound::ZERO)? {
            return Ok(None);
        }
        if !tighter(e, m[i][j])? {
            return Ok(Some((*m, tests)));
        }
        let mut next = *m;
        for k in 0..=clocks {
            for l in 0..=clocks {
                let through = m[k][i].sum(e).sum(m[j][l]);
                if tighter(through, m[k][l])? {
                    next[k][l] = through;
                }
            }
        }
        Ok(Some((next, tests)))
    }
}
