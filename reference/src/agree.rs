//! Sweep, the instants and single runs held to each other.

use crate::instants::bounds;
use crate::parts::ends;
use crate::planned::{planned, random_shape, valuation, Planned};
use crate::random::Random;
use crate::samples::{biggest_sheet, random_sheet, Size};
use crate::sheet::{parameters_of, Sheet, MOST_PARAMETERS};
use crate::sweep::{sweep, Matrix, SIDE};
use crate::valuations::Valuation;
use crate::weight::Weight;
use crate::writer;

/// Sweep's matrix and the instants' agree, and the padding is zero, not strict. Answers whether
/// there is a run.
fn same(sheet: &Sheet, v: Valuation) -> bool {
    let found = sweep(&writer::file(sheet), v).unwrap();
    let clocks = usize::from(sheet.clocks);
    let inner = found.map(|m| m[..=clocks].iter().map(|r| r[..=clocks].to_vec()).collect());
    assert_eq!(inner, bounds(sheet, v), "{sheet:?} at {v:?}");
    for (i, j) in pairs(SIDE).filter(|&(i, j)| i > clocks || j > clocks) {
        assert!(found.is_none_or(|m| m[i][j] == Weight::ZERO));
    }
    found.is_some()
}

/// All pairs of numbers below `n`.
fn pairs(n: usize) -> impl Iterator<Item = (usize, usize)> {
    (0..n).flat_map(move |i| (0..n).map(move |j| (i, j)))
}

/// Sweep and the instants agree on planned sheets of both versions, at the planned valuation and at others.
#[test]
fn agree_on_planned_sheets() {
    let random = &mut Random::new(11);
    let (mut runs, mut all) = (0, 0);
    for (moves, count) in [(0, 2000), (4, 15000), (12, 4000), (32, 1500)] {
        for n in 0..count {
            let guards = 1 + random.below(6);
            let mut shape = random_shape(random, moves, guards, 20);
            if n % 3 == 2 {
                shape.version = 2;
                shape.parameters = random.below(MOST_PARAMETERS + 1);
            }
            let Planned {
                sheet,
                valuation: v,
            } = planned(random, shape);
            for v in [
                v,
                valuation(random, &sheet.parameters),
                valuation(random, &sheet.parameters),
            ] {
                runs += usize::from(same(&sheet, v));
                all += 1;
            }
        }
    }
    assert!(
        runs * 3 > all && runs * 10 < all * 9,
        "{runs} runs of {all}"
    );
}

/// Sweep and the instants agree on random sheets of both versions.
#[test]
fn agree_on_random_sheets() {
    let random = &mut Random::new(12);
    for (size, count) in [
        (Size::SMALL, 20_000),
        (Size::ROUTED, 3_000),
        (Size::LARGE, 500),
    ] {
        for n in 0..count {
            let sheet = random_sheet(random, [1, 2][n % 2], size);
            same(&sheet, valuation(random, &sheet.parameters));
        }
    }
    for clocks in 1..=4 {
        for version in [1, 2] {
            let sheet = biggest_sheet(random, version, parameters_of(version), clocks);
            same(&sheet, valuation(random, &sheet.parameters));
        }
    }
}

/// Four parts to a minute tell apart all that three waits can do: with the start there are four
/// instants, so at most four fractions of a minute.
const PARTS: i64 = 4;
/// The longest wait that is tried. The numbers of the guards go from -2 to 2 and a path has at most
/// three of them, so a bound is at most 6; one that comes from the longest wait alone, and so is none,
/// is at least 12 - 2 - 2, less a part of a minute.
const MINUTES: i64 = 12;

/// Sweep's matrix is that of the tightest bounds of the runs that are tried out one by one.
#[test]
fn agree_with_single_runs() {
    let random = &mut Random::new(13);
    let mut runs = 0;
    for _ in 0..1000 {
        let sheet = tiny(random);
        let list = ends(&sheet, [0; 4], PARTS, PARTS * MINUTES);
        match sweep(&writer::file(&sheet), [0; 4]).unwrap() {
            None => assert!(list.is_empty(), "{sheet:?}"),
            Some(m) => {
                runs += 1;
                tightest(&sheet, &m, &list);
            }
        }
    }
    assert!(runs > 250 && runs < 950, "{runs} runs");
}

/// A sheet without parameters, with at most two moves, whose guards have numbers from -2 to 2.
fn tiny(random: &mut Random) -> Sheet {
    let mut shape = random_shape(random, 2, 2, 0);
    shape.parameters = 0;
    let mut sheet = planned(random, shape).sheet;
    for location in &mut sheet.locations {
        for guard in &mut location.invariants {
            guard.constant = guard.constant.clamp(-2, 2);
        }
    }
    for transition in &mut sheet.transitions {
        for guard in &mut transition.guards {
            guard.constant = guard.constant.clamp(-2, 2);
        }
    }
    sheet
}

/// Each entry is met by all end states, and reached, or come close to, by one of them.
fn tightest(sheet: &Sheet, m: &Matrix, list: &[[i64; 5]]) {
    for (i, j) in pairs(usize::from(sheet.clocks) + 1) {
        let most = list.iter().map(|x| x[i] - x[j]).max().unwrap();
        let right = match m[i][j] {
            Weight::None => most > PARTS * (MINUTES - 5),
            Weight::At {
                value,
                strict: false,
            } => most == PARTS * value,
            Weight::At {
                value,
                strict: true,
            } => most < PARTS * value && most > PARTS * (value - 1),
        };
        assert!(right, "({i}, {j}) up to {most} parts: {m:?} of {sheet:?}");
    }
}
