//! Families of random sheets built for many zones, many inequalities, and large numbers.

use super::drawn::{many, with_table};
use super::edges::both_sides;
use super::Record;
use crate::random::Random;
use crate::samples::{along, at_most, range};
use crate::sheet::{Guard, Parameter, Sheet, MOST_CLOCKS, MOST_GUARDS, MOST_ROUTE};

/// The guards, two to six at each place in turn: a move to location 1, a stay there, a move to
/// location 2 and so on. One move in four resets a clock; the stay after it has none, since lower
/// ones would forbid the arrival.
fn scattered(random: &mut Random, parameters: &[Parameter], clocks: u8, guards: &[Guard]) -> Sheet {
    let mut left = guards;
    let mut stays = vec![vec![]];
    let mut moves = Vec::new();
    while !left.is_empty() {
        let list = some(random, &mut left);
        let resets = if clocks > 1 && random.once_in(4) {
            1 << random.below(usize::from(clocks))
        } else {
            0
        };
        moves.push((resets, list));
        stays.push(if resets == 0 {
            some(random, &mut left)
        } else {
            vec![]
        });
    }
    let path: Vec<u8> = (0..stays.len() as u8).collect();
    along(parameters, clocks, &stays, &path, &moves)
}

/// The next two to six guards of a list, which loses them.
fn some(random: &mut Random, left: &mut &[Guard]) -> Vec<Guard> {
    let count = (2 + random.below(MOST_GUARDS - 1)).min(left.len());
    let (some, others) = left.split_at(count);
    *left = others;
    some.to_vec()
}

/// Lower guards with bounds k^2 - 2kp, of which each is the least somewhere, in rising order, from both
/// sides, or in no order; some with a second parameter, some with an upper guard among them.
pub(super) fn envelopes(random: &mut Random) -> Vec<Record> {
    many(330, |n| {
        let count = random.from_to(6, 40);
        let mut numbers: Vec<i16> = match n % 3 {
            0 => (1..=count.min(31)).collect(),
            _ => both_sides(count).collect(),
        };
        if n % 9 == 5 {
            shuffle(random, &mut numbers);
        }
        let two = n % 4 == 3;
        let parameters = match (n % 3, two) {
            (0, false) => vec![range(-3, 40)],
            (_, false) => vec![range(-24, 24)],
            (_, true) => vec![range(-24, 24), range(-1, 2)],
        };
        let clocks = 1 + random.below(MOST_CLOCKS) as u8;
        let mut guards = Vec::new();
        for k in numbers {
            let clock = if random.once_in(3) { clocks } else { 1 };
            let q = if two && random.once_in(4) {
                random.from_to(-2, 2)
            } else {
                0
            };
            let mut guard = at_most(0, clock, k * k, [-2 * k, q, 0, 0]);
            guard.strict = random.once_in(5);
            guards.push(guard);
            if random.once_in(12) {
                let slope = random.from_to(-9, 9);
                guards.push(at_most(
                    clock,
                    0,
                    random.from_to(100, 600),
                    [slope, 0, 0, 0],
                ));
            }
        }
        let sheet = scattered(random, &parameters, clocks, &guards);
        with_table(random, &sheet)
    })
}

/// Puts a list in a random order.
fn shuffle(random: &mut Random, list: &mut [i16]) {
    for k in 1..list.len() {
        list.swap(k, random.below(k + 1));
    }
}

/// Upper guards in p, and lower guards that rise, each of which cuts a little off the ranges: many
/// inequalities for few zones.
pub(super) fn shaved(random: &mut Random) -> Vec<Record> {
    many(200, |n| {
        let parameters = match n % 3 {
            0 => vec![range(0, 63)],
            1 => vec![range(0, 50), range(-1, 1)],
            _ => vec![range(-3, 40), range(0, 1), range(0, 1)],
        };
        let other = if n % 3 > 0 && n % 2 == 0 { 1 } else { 0 };
        let clocks = 1 + random.below(MOST_CLOCKS) as u8;
        let mut up = at_most(1, 0, 0, [1, other, 0, 0]);
        up.strict = random.once_in(4);
        let mut moves: Vec<(u8, Vec<Guard>)> = Vec::new();
        let mut left = 17 + random.below(14);
        let mut k = 0;
        while left > 0 {
            let count = (1 + random.below(MOST_GUARDS)).min(left);
            let mut list = Vec::new();
            for _ in 0..count {
                k += if random.once_in(6) { 2 } else { 1 };
                let mut down = at_most(0, 1, -k, [0; 4]);
                if n % 3 > 0 && random.once_in(5) {
                    down.coefficients[1] = random.from_to(-1, 1);
                }
                down.strict = random.once_in(8);
                list.push(down);
            }
            let resets = if clocks > 1 && random.once_in(3) {
                2
            } else {
                0
            };
            moves.push((resets, list));
            left -= count;
        }
        let path = vec![0; moves.len() + 1];
        let sheet = along(&parameters, clocks, &[vec![up]], &path, &moves);
        with_table(random, &sheet)
    })
}

/// Sheets with a clock that is never reset and others that are reset at each of up to 32 moves,
/// upper guards at the stays and lower ones at the moves, with numbers up to 1,000, so that entries,
/// sums and tests come to large ones.
pub(super) fn large_numbers(random: &mut Random) -> Vec<Record> {
    many(60, |n| {
        let clocks = 2 + (n % 3) as u8;
        let large = |random: &mut Random| random.from_to(900, 1000);
        let upper = |random: &mut Random, clock| {
            let [p, q, r] = [0; 3].map(|_| large(random));
            at_most(clock, 0, large(random), [p, q, r, 0])
        };
        let lower = |random: &mut Random, clock| {
            let [p, q, r] = [0; 3].map(|_| -random.from_to(0, 300));
            at_most(0, clock, -random.from_to(0, 800), [p, q, r, 0])
        };
        let stays = [0; 2].map(|_| (2..=clocks).map(|clock| upper(random, clock)).collect());
        let leaves = [0; 2].map(|_| (2..=clocks).map(|clock| lower(random, clock)).collect());
        let moves: Vec<(u8, Vec<Guard>)> = (0..1 + random.below(MOST_ROUTE))
            .map(|k| {
                let bits = random.below(1 << clocks) as u8 & !1;
                let resets = if random.once_in(2) { 2 } else { bits };
                (resets, Vec::clone(&leaves[k % 2]))
            })
            .collect();
        let path: Vec<u8> = (0..=moves.len()).map(|k| (k % 2) as u8).collect();
        let parameters = [range(0, 2), range(-1, 1), range(0, 1)];
        let sheet = along(&parameters, clocks, &stays, &path, &moves);
        with_table(random, &sheet)
    })
}
