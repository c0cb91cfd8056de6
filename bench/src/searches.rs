// The two searches: the proved one, and a plain scan over all valuations in lexicographic order.
use crate::system::{value, Expr, Input, System, Valuation, PARAMETERS};

mod proved {
    extern "C" {
        pub fn search_first(ranges: *const i16, ends: usize, inequalities: *const i32, numbers: usize, k: usize) -> i64;
        pub fn search_count(ranges: *const i16, ends: usize, inequalities: *const i32, numbers: usize) -> usize;
        pub fn search_some(
            ranges: *const i16,
            ends: usize,
            guess: *const i16,
            places: usize,
            inequalities: *const i32,
            numbers: usize,
        ) -> bool;
    }
}

// What the proved search answers for nothing.
const NOTHING: i64 = 65536;

// The number of parameter k in the first valuation, or NOTHING.
fn first_at(input: &Input, k: usize) -> i64 {
    let (a, b) = (&input.ranges, &input.inequalities);
    // The function reads the two slices, and asks nothing of their contents.
    unsafe { proved::search_first(a.as_ptr(), a.len(), b.as_ptr(), b.len(), k) }
}

// Whether there is a first valuation: one search.
pub fn first(input: &Input) -> i64 {
    (first_at(input, 0) != NOTHING) as i64
}

// The first valuation: a search for each parameter.
pub fn whole_first(input: &Input) -> Option<Valuation> {
    let numbers: [i64; PARAMETERS] = std::array::from_fn(|k| first_at(input, k));
    (numbers[0] != NOTHING).then(|| numbers.map(|x| x as i16))
}

// How many valuations there are.
pub fn count(input: &Input) -> i64 {
    let (a, b) = (&input.ranges, &input.inequalities);
    // As above.
    unsafe { proved::search_count(a.as_ptr(), a.len(), b.as_ptr(), b.len()) as i64 }
}

// Whether there is a valuation; the guess is tried first.
pub fn some(input: &Input, guess: Valuation) -> i64 {
    let (a, b) = (&input.ranges, &input.inequalities);
    // As above.
    unsafe { proved::search_some(a.as_ptr(), a.len(), guess.as_ptr(), guess.len(), b.as_ptr(), b.len()) as i64 }
}

fn holds(list: &[Expr], v: Valuation) -> bool {
    list.iter().all(|e| value(e, v) >= 0)
}

pub fn scan_first(s: &System) -> Option<Valuation> {
    let mut found = None;
    s.each(&mut |v| {
        found = holds(&s.list, v).then_some(v);
        found.is_some()
    });
    found
}

pub fn scan_count(s: &System) -> i64 {
    let mut total = 0;
    s.each(&mut |v| {
        total += holds(&s.list, v) as i64;
        false
    });
    total
}
