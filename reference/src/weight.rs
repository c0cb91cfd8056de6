//! Weights: the entries of a matrix at one valuation (the paper's bounds, with a setting put in).

/// A weight: none, or a number with its mark.
#[derive(Clone, Copy, Debug, PartialEq, Eq)]
pub enum Weight {
    None,
    At { value: i64, strict: bool },
}

impl Weight {
    /// Zero, not strict.
    pub const ZERO: Weight = Weight::At {
        value: 0,
        strict: false,
    };

    /// The sum: numbers added; strict if either is; none if either is.
    pub fn sum(self, other: Weight) -> Weight {
        match (self, other) {
            (
                Weight::At {
                    value: x,
                    strict: s,
                },
                Weight::At {
                    value: y,
                    strict: t,
                },
            ) => Weight::At {
                value: x + y,
                strict: s || t,
            },
            _ => Weight::None,
        }
    }

    /// Whether this weight, a, is tighter than the other, b: with a strict and b not, b - a >= 0,
    /// else b - a - 1 >= 0. Any other weight is tighter than none, and none than no weight.
    pub fn tighter(self, other: Weight) -> bool {
        match (self, other) {
            (Weight::None, _) => false,
            (_, Weight::None) => true,
            (
                Weight::At {
                    value: a,
                    strict: true,
                },
                Weight::At {
                    value: b,
                    strict: false,
                },
            ) => a <= b,
            (Weight::At { value: a, .. }, Weight::At { value: b, .. }) => a < b,
        }
    }
}
