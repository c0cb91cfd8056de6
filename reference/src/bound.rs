//! Bounds: the entries of a zone's matrix, numbers that rest on the parameters (paper 01, "Cutting the
//! ranges").

use crate::sheet::{Guard, MOST_PARAMETERS};
use crate::valuations::Valuation;
use crate::weight::Weight;

/// An expression: the constant, and a coefficient for each parameter.
pub type Expr = [i64; 1 + MOST_PARAMETERS];

/// The value of an expression at a valuation.
pub fn value(e: Expr, v: Valuation) -> i64 {
    let terms = e[1..].iter().zip(v);
    e[0] + terms.map(|(c, x)| c * x).sum::<i64>()
}

/// The expression of the opposite of e >= 0, parameters being whole.
pub fn opposite(e: Expr) -> Expr {
    let mut opposite = e.map(|x| -x);
    opposite[0] -= 1;
    opposite
}

/// A bound: none, or an expression with its mark.
#[derive(Clone, Copy, Debug, PartialEq, Eq)]
pub enum Bound {
    None,
    At { expr: Expr, strict: bool },
}

/// What a comparison of two bounds comes to: the answer, or an expression that is asked to be at
/// least 0.
#[derive(Clone, Copy, Debug, PartialEq, Eq)]
pub enum Test {
    Known(bool),
    Asked(Expr),
}

impl Bound {
    /// Zero, not strict.
    pub const ZERO: Bound = Bound::At {
        expr: [0; 1 + MOST_PARAMETERS],
        strict: false,
    };

    /// The bound that a guard gives.
    pub fn of(guard: &Guard) -> Bound {
        let c = guard.coefficients;
        Bound::At {
            expr: [guard.constant, c[0], c[1], c[2], c[3]].map(i64::from),
            strict: guard.strict,
        }
    }

    /// The sum: expressions added; strict if either is; none if either is.
    pub fn sum(self, other: Bound) -> Bound {
        let (Bound::At { expr: a, strict: s }, Bound::At { expr: b, strict: t }) = (self, other)
        else {
            return Bound::None;
        };
        Bound::At {
            expr: std::array::from_fn(|k| a[k] + b[k]),
            strict: s || t,
        }
    }

    /// Whether this bound, a, is tighter than the other, b: with a strict and b not, b - a >= 0, else
    /// b - a - 1 >= 0. Any other bound is tighter than none, and none than no bound, with no test.
    pub fn tighter(self, other: Bound) -> Test {
        let Bound::At { expr: a, strict: s } = self else {
            return Test::Known(false);
        };
        let Bound::At { expr: b, strict: t } = other else {
            return Test::Known(true);
        };
        let mut test: Expr = std::array::from_fn(|k| b[k] - a[k]);
        if !s || t {
            test[0] -= 1;
        }
        Test::Asked(test)
    }

    /// The bound with a valuation put in.
    pub fn at(self, v: Valuation) -> Weight {
        match self {
            Bound::None => Weight::None,
            Bound::At { expr, strict } => Weight::At {
                value: value(expr, v),
                strict,
            },
        }
    }
}

#[cfg(test)]
mod tests {
    use super::*;
    use crate::random::Random;

    /// A random bound with small numbers.
    fn some(random: &mut Random) -> Bound {
        if random.once_in(6) {
            return Bound::None;
        }
        let expr = [0; 5].map(|_| i64::from(random.from_to(-3, 3)));
        let strict = random.once_in(2);
        Bound::At { expr, strict }
    }

    /// With a valuation put in, a sum is the sum of the weights, and a test is true exactly if the
    /// first weight is tighter; exactly one of an inequality and its opposite is true.
    #[test]
    fn bounds_are_weights_at_a_valuation() {
        let random = &mut Random::new(21);
        for _ in 0..20000 {
            let (a, b) = (some(random), some(random));
            let v = [0; 4].map(|_| i64::from(random.from_to(-4, 4)));
            assert_eq!(a.sum(b).at(v), a.at(v).sum(b.at(v)));
            let yes = a.at(v).tighter(b.at(v));
            match a.tighter(b) {
                Test::Known(answer) => assert_eq!(answer, yes),
                Test::Asked(e) => {
                    assert_eq!(value(e, v) >= 0, yes);
                    assert_eq!(value(opposite(e), v) >= 0, !yes);
                }
            }
        }
    }

    /// Sums and tests number by number, and with none.
    #[test]
    fn numbers_are_exact() {
        let at = |expr, strict| Bound::At { expr, strict };
        let [a, b] = [[9_000_000, -7, 0, 2, 4], [2_000_000, 5, -1, 0, 9]];
        let sum = at([11_000_000, -2, -1, 2, 13], true);
        assert_eq!(at(a, false).sum(at(b, true)), sum);
        for (s, t, constant) in [
            (false, false, -7_000_001),
            (false, true, -7_000_001),
            (true, true, -7_000_001),
            (true, false, -7_000_000),
        ] {
            let test = Test::Asked([constant, 12, -1, -2, 5]);
            assert_eq!(at(a, s).tighter(at(b, t)), test);
        }
        for bound in [at(a, true), Bound::None] {
            assert_eq!(bound.sum(Bound::None), Bound::None);
            assert_eq!(Bound::None.sum(bound), Bound::None);
            assert_eq!(Bound::None.tighter(bound), Test::Known(false));
        }
        assert_eq!(at(a, false).tighter(Bound::None), Test::Known(true));
    }
}
