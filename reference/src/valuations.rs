//! Valuations of a sheet's parameters (the paper's settings), all of them or those that are tried.

use crate::planned::valuation;
use crate::random::Random;
use crate::sheet::{Parameter, MOST_PARAMETERS};

/// Four numbers, one for each parameter.
pub type Valuation = [i64; MOST_PARAMETERS];

/// All the valuations of those parameters, in order: parameter 1 is compared first, then 2 and so on.
pub fn all(parameters: &[Parameter]) -> Vec<Valuation> {
    products(parameters, |p| (p.lowest..=p.highest).collect())
}

/// The valuations at which each parameter is at an end of its range.
pub fn corners(parameters: &[Parameter]) -> Vec<Valuation> {
    let mut list = products(parameters, |p| vec![p.lowest, p.highest]);
    list.dedup();
    list
}

/// The valuations of which each number is one of those given for its parameter.
fn products(parameters: &[Parameter], values: impl Fn(&Parameter) -> Vec<i16>) -> Vec<Valuation> {
    let mut list = vec![[0; MOST_PARAMETERS]];
    for (k, parameter) in parameters.iter().enumerate() {
        let values = values(parameter);
        let with = |v: Valuation| values.iter().map(move |&x| put(v, k, i64::from(x)));
        list = list.into_iter().flat_map(with).collect();
    }
    list
}

/// A valuation with number k replaced.
fn put(mut v: Valuation, k: usize, x: i64) -> Valuation {
    v[k] = x;
    v
}

/// That many random valuations.
pub fn some(random: &mut Random, parameters: &[Parameter], count: usize) -> Vec<Valuation> {
    (0..count).map(|_| valuation(random, parameters)).collect()
}

/// Numbers of which at least one is no value of its parameter: just past an end, far from it, and
/// equal to a value in the low 8, 16 or 32 bits only. It is one of the first `count`, of which there are more
/// than parameters where a parameter lacks.
pub fn beyond(random: &mut Random, count: usize, parameters: &[Parameter]) -> Vec<Valuation> {
    let mut list = Vec::new();
    for k in 0..count {
        for x in past(parameters.get(k)) {
            list.push(put(valuation(random, parameters), k, x));
        }
        let [i, j] = [random.below(count), random.below(count)];
        let far = put(valuation(random, parameters), i, i64::MAX - k as i64);
        list.push(put(far, j, i64::MIN + k as i64));
    }
    list
}

/// Numbers past the range of a parameter, or other than 0 where there is none.
fn past(parameter: Option<&Parameter>) -> Vec<i64> {
    let (low, high) = match parameter {
        Some(p) => (i64::from(p.lowest), i64::from(p.highest)),
        None => (0, 0),
    };
    vec![
        low - 1,
        high + 1,
        low - (1 << 16),
        high + (1 << 16),
        low - (1 << 32),
        high + (1 << 32),
        low + 256,
        i64::MIN,
        i64::MAX,
    ]
}

#[cfg(test)]
mod tests {
    use super::*;
    use crate::samples::range;
    use crate::sheet::valuations;

    /// All valuations are there once and in order, the last parameter changing fastest; a parameter that lacks is 0.
    #[test]
    fn all_in_order() {
        assert_eq!(all(&[]), [[0; 4]]);
        let two = all(&[range(-2, -1), range(7, 9)]);
        let rows = [[-2, 7], [-2, 8], [-2, 9], [-1, 7], [-1, 8], [-1, 9]];
        assert_eq!(two, rows.map(|[p, q]| [p, q, 0, 0]));
        let three = all(&[range(-3, 5), range(0, 0), range(-1, 63)]);
        assert_eq!(three.len(), 9 * 65);
        assert!(three.windows(2).all(|pair| pair[0] < pair[1]));
        let four = all(&[range(0, 3), range(-9, -5), range(2, 2), range(-1, 6)]);
        assert_eq!(four[..2], [[0, -9, 2, -1], [0, -9, 2, 0]]);
        assert_eq!(
            four.len(),
            valuations(&[range(0, 3), range(-9, -5), range(-1, 6)])
        );
        assert!(four.windows(2).all(|pair| pair[0] < pair[1]));
    }
}
