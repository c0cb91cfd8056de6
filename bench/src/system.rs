// Systems of inequalities over four ranges, and the numbers that stand for them.

pub const PARAMETERS: usize = 4;

pub const MOST: usize = 25;

// A number for each parameter.
pub type Valuation = [i16; PARAMETERS];

// Low and high of each parameter, both included.
pub type Ranges = [(i16, i16); PARAMETERS];

// constant + sum of coefficient × parameter ≥ 0: the constant, then the coefficients.
pub type Expr = [i32; 1 + PARAMETERS];

// The sum of coefficient × parameter.
pub fn dot(coefs: &[i32], v: Valuation) -> i64 {
    coefs.iter().zip(v).map(|(&c, x)| c as i64 * x as i64).sum()
}

// The value of an expression at a valuation.
pub fn value(e: &Expr, v: Valuation) -> i64 {
    e[0] as i64 + dot(&e[1..], v)
}

#[derive(Clone)]
pub struct System {
    pub ranges: Ranges,
    pub list: Vec<Expr>,
}

// The numbers that the proved search reads: low and high of each range, and the inequalities one after another.
pub struct Input {
    pub ranges: Vec<i16>,
    pub inequalities: Vec<i32>,
}

impl System {
    pub fn input(&self) -> Input {
        self.input_of(PARAMETERS)
    }

    // The numbers of the first parameters alone; the others are 0.
    pub fn input_of(&self, parameters: usize) -> Input {
        Input {
            ranges: self.ranges[..parameters].iter().flat_map(|&(low, high)| [low, high]).collect(),
            inequalities: self.list.iter().flat_map(|e| &e[..=parameters]).copied().collect(),
        }
    }

    // How many valuations the ranges have.
    pub fn size(&self) -> u64 {
        self.ranges.iter().map(|&(low, high)| (high as i64 - low as i64 + 1).max(0) as u64).product()
    }

    // Calls f on each valuation of the ranges, in lexicographic order, until it says that it is enough.
    pub fn each(&self, f: &mut impl FnMut(Valuation) -> bool) {
        let [p, q, r, s] = self.ranges;
        for x in p.0..=p.1 {
            for y in q.0..=q.1 {
                for z in r.0..=r.1 {
                    for w in s.0..=s.1 {
                        if f([x, y, z, w]) {
                            return;
                        }
                    }
                }
            }
        }
    }
}
