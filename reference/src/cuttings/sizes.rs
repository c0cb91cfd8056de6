//! How large numbers become (paper 02, request (n)): the ranges of a sheet cut a second time, test by test
//! (`ways`), in which the numbers of every entry, sum and test are met.
//!
//! An entry is a path between two instants of a run that passes none twice, so that with each wait its numbers
//! can become larger by 1,000. A sum is of two entries and a guard, and a test compares it with one more entry.

use super::ways::{guarded, size, Sizes, Way};
use super::{alone, families, numbers};
use crate::bound::Bound;
use crate::family::records;
use crate::random::Random;
use crate::samples::{along, at_most, random_clocks, range};
use crate::sheet::{read, Guard, Refusal, Sheet, MOST_CLOCKS, MOST_GUARDS, MOST_ROUTE};
use crate::sweep::SIDE;
use crate::valuations::all;
use crate::windows::{cut, Limits};

/// The way along a route: the zones so far, the waits and the moves made, and the sizes that were met.
struct Walk {
    clocks: u8,
    ways: Vec<Way>,
    waits: i64,
    visit: usize,
    sizes: Sizes,
}

impl Walk {
    /// The whole route.
    fn route(&mut self, sheet: &Sheet) -> Result<(), Refusal> {
        let mut stay = &sheet.locations[0].invariants;
        self.guards(stay)?;
        for &number in &sheet.route {
            let transition = &sheet.transitions[usize::from(number)];
            self.wait();
            self.guards(stay)?;
            self.guards(&transition.guards)?;
            let clocks = 1..=usize::from(self.clocks);
            for r in clocks.filter(|r| transition.resets >> (r - 1) & 1 == 1) {
                self.reset(r);
            }
            self.visit += 1;
            stay = &sheet.locations[usize::from(transition.to)].invariants;
            self.guards(stay)?;
        }
        self.wait();
        self.guards(stay)
    }

    /// Guards in order.
    fn guards(&mut self, list: &[Guard]) -> Result<(), Refusal> {
        for guard in list {
            let zones = std::mem::take(&mut self.ways);
            let refused = |number| Refusal {
                number,
                place: self.visit,
            };
            self.ways = guarded(self.clocks, zones, guard, &mut self.sizes).map_err(refused)?;
            self.entries();
        }
        Ok(())
    }

    /// A wait.
    fn wait(&mut self) {
        self.waits += 1;
        for way in &mut self.ways {
            for i in 1..=usize::from(self.clocks) {
                way.bounds[i][0] = Bound::None;
            }
        }
    }

    /// A reset.
    fn reset(&mut self, r: usize) {
        for way in &mut self.ways {
            let old = way.bounds;
            let from = |k: usize| if k == r { 0 } else { k };
            for k in 0..=usize::from(self.clocks) {
                for l in 0..=usize::from(self.clocks) {
                    way.bounds[k][l] = old[from(k)][from(l)];
                }
            }
        }
    }

    /// No number of an entry passes 1,000 for each wait so far.
    fn entries(&mut self) {
        let entry = largest_entry(&self.ways);
        assert!(entry <= 1000 * self.waits, "{entry}, {} waits", self.waits);
        self.sizes.entry = self.sizes.entry.max(entry);
    }
}

/// The size of the largest number of an entry.
fn largest_entry(ways: &[Way]) -> i64 {
    let entries = ways.iter().flat_map(|way| way.bounds.as_flattened());
    let sizes = entries.map(|&bound| match bound {
        Bound::None => 0,
        Bound::At { expr, .. } => size(expr),
    });
    sizes.max().unwrap_or(0)
}

/// The way along the route of a sheet. Its ranges are cut as Windows does, with the same refusal if there is one.
fn walk(sheet: &Sheet) -> Walk {
    let whole = Way::new(all(&sheet.parameters), [[Bound::ZERO; SIDE]; SIDE], 0);
    let mut walk = Walk {
        clocks: sheet.clocks,
        ways: vec![whole],
        waits: 0,
        visit: 0,
        sizes: Sizes::default(),
    };
    match (walk.route(sheet), cut(sheet, Limits::PAPER)) {
        (Ok(()), Ok(found)) => {
            assert_eq!(walk.ways.len(), found.zones.len());
            for (way, zone) in walk.ways.iter().zip(&found.zones) {
                way.agrees(zone);
            }
        }
        (again, found) => assert_eq!(again.err(), found.err()),
    }
    walk
}

/// The largest sizes along the route of a sheet, and those of one more guard at its end, for each of those that are
/// put to single zones (`alone`). None passes what is proved.
fn sizes(sheet: &Sheet) -> [Sizes; 2] {
    let Walk { ways, sizes, .. } = walk(sheet);
    let mut more = Sizes::default();
    for way in &ways {
        for guard in alone::guards(sheet) {
            if let Ok(list) = guarded(sheet.clocks, vec![way.clone()], guard, &mut more) {
                more.entry = more.entry.max(largest_entry(&list));
            }
        }
    }
    for found in [sizes, more] {
        let Sizes { entry, sum, test } = found;
        let within = entry <= 33_000 && sum <= 67_000 && test <= 100_001;
        assert!(within, "{found:?}");
    }
    [sizes, more]
}

/// No size of a stored sheet passes what is proved, and these are the largest.
#[test]
fn stored_sizes() {
    let mut largest = [Sizes::default(); 2];
    for record in records(&families()) {
        if let Ok(sheet) = read(&record.file) {
            let [along, more] = sizes(&sheet);
            largest = [largest[0].or(along), largest[1].or(more)];
        }
    }
    let entry = 33_000;
    let reached = [(65_000, 65_001), (67_000, 66_001)];
    assert_eq!(
        largest,
        reached.map(|(sum, test)| Sizes { entry, sum, test })
    );
}

/// The sizes of sheets that are built for them.
#[test]
fn built_sizes() {
    for (name, entry, sum, test) in [
        ("33,000", 33_000, 33_000, 33_001),
        ("-33,000", 33_000, 33_000, 33_000),
        ("32,767", 32_767, 32_767, 32_768),
        ("32,768", 32_768, 32_768, 32_769),
        ("an inequality of -34,001", 33_000, 33_000, 34_001),
        ("sums of 65,000", 33_000, 65_000, 34_001),
        ("sums of -65,000", 33_000, 65_000, 34_000),
        ("tests of -65,001", 33_000, 65_000, 65_001),
        ("tests of 65,000", 33_000, 65_000, 65_000),
        ("a start, at most 1,000", 1_000, 1_000, 1_001),
        ("1,000, and 1,000 on arrival", 1_000, 1_000, 2_000),
    ] {
        let mut cases = numbers::cases().into_iter();
        let case = cases.find(|case| case.name == name).unwrap();
        let [found, _] = sizes(&read(&case.file).unwrap());
        assert_eq!(found, Sizes { entry, sum, test }, "{name}");
    }
}

/// The signs of a sheet's numbers: all the same, by the guard's direction, or each by itself.
#[derive(Clone, Copy)]
enum Signs {
    Same,
    Directed,
    Mixed,
}

/// The minutes of the clocks in a run, all of them even.
type Minutes = [i16; SIDE];

/// A guard that the clocks meet where p, r and s are 0 and q is 2: clock 2 with little to spare, others with much.
/// Its numbers but the coefficient of q are near 1,000 in size.
fn near(random: &mut Random, signs: Signs, (a, b): (u8, u8), minutes: &Minutes) -> Guard {
    let spare = 2 * random.from_to(0, if a + b == 2 { 2 } else { 99 });
    let most = minutes[usize::from(a)] - minutes[usize::from(b)] + spare;
    let [constant, p, r, s] = [0; 4].map(|_| {
        let minus = match signs {
            Signs::Same => false,
            Signs::Directed => a == 0,
            Signs::Mixed => random.once_in(2),
        };
        let number = 1000 - 2 * random.from_to(0, 5);
        if minus {
            -number
        } else {
            number
        }
    });
    let mut guard = at_most(a, b, constant, [p, (most - constant) / 2, r, s]);
    guard.strict = spare > 0 && random.once_in(3);
    guard
}

/// A sheet around a run of 32 moves, with guards at each move and upper guards at the last stay. Most moves reset
/// clock 2, none clock 1, and most guards are on clock 2: paths go from move to move.
fn long(random: &mut Random, signs: Signs, highest: i16) -> Sheet {
    let clocks = 2 + random.below(MOST_CLOCKS - 1) as u8;
    let mut minutes: Minutes = [0; SIDE];
    let mut moves = Vec::new();
    for _ in 0..MOST_ROUTE {
        let wait = 2 * random.from_to(0, 3);
        minutes[1..].iter_mut().for_each(|clock| *clock += wait);
        let guards = (0..1 + random.below(MOST_GUARDS)).map(|_| {
            let pair = if random.once_in(8) {
                random_clocks(random, clocks)
            } else {
                [(0, 2), (2, 0)][random.below(2)]
            };
            near(random, signs, pair, &minutes)
        });
        let guards = guards.collect();
        let mut resets = 0;
        for clock in 2..=clocks {
            if clock == 2 && !random.once_in(16) || random.once_in(8) {
                resets |= 1 << (clock - 1);
                minutes[usize::from(clock)] = 0;
            }
        }
        moves.push((resets, guards));
    }
    let there = (1..=clocks).map(|clock| near(random, signs, (clock, 0), &minutes));
    let mut path = [0; MOST_ROUTE + 1];
    path[MOST_ROUTE] = 1;
    let parameters = [range(0, highest), range(2, 2), range(0, 0), range(0, 0)];
    let stays = [vec![], there.collect()];
    along(&parameters, clocks, &stays, &path, &moves)
}

/// Nor does one of a random sheet with a long route and large numbers. Some come near to the largest.
#[test]
fn random_sizes() {
    let random = &mut Random::new(51);
    let mut largest = Sizes::default();
    for n in 0..3000 {
        let signs = [Signs::Same, Signs::Directed, Signs::Mixed][n % 3];
        let sheet = long(random, signs, [0, 0, 0, 1][n % 4]);
        largest = largest.or(sizes(&sheet)[0]);
    }
    let Sizes { entry, sum, test } = largest;
    assert!(
        entry > 30_000 && sum > 45_000 && test > 45_000,
        "{largest:?}"
    );
}
