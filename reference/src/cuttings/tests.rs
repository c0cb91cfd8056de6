//! The cutting held to the results that are written by hand, and to Sweep on random sheets.

use super::held::{held, MOST_TRIED};
use super::{answer, arrivals, counts, edges, families, firsts, numbers, paper, version_2};
use crate::family::records;
use crate::planned::{crossed, planned, random_shape};
use crate::random::Random;
use crate::sheet::read;
use crate::valuations::{all, Valuation};
use crate::windows::{cut, windows, Limits};

/// Windows, and one guard on one zone, give the results that are written beside the cases.
#[test]
fn results_are_as_written() {
    for cases in [
        paper::cases(),
        edges::cases(),
        firsts::cases(),
        arrivals::cases(),
        counts::cases(),
        numbers::cases(),
        version_2::cases(),
        version_2::shifted_cases(),
    ] {
        for case in cases {
            let found = windows(&case.file, case.places);
            let found = found.map(|w| (w.zones.len(), w.kept, w.cut));
            assert!(case.is_right(), "{}: {found:?}", case.name);
        }
    }
}

/// Nothing of the zones of random sheets disagrees with Sweep, at any valuation.
#[test]
fn zones_agree_with_sweep() {
    let random = &mut Random::new(31);
    let mut zones = [0; 33];
    let mut refused = 0;
    for n in 0..1700 {
        let (version, parameters, width) = [(1, 1, 63), (1, 2, 20), (1, 3, 7), (2, 4, 4)][n % 4];
        let mut shape = random_shape(random, 9, 1 + n % 6, width);
        shape.version = version;
        shape.parameters = parameters;
        let drawn = if n % 5 == 0 { planned } else { crossed };
        let sheet = drawn(random, shape).sheet;
        match cut(&sheet, Limits::PAPER) {
            Ok(found) => {
                zones[found.zones.len()] += 1;
                held(random, &sheet, &found).unwrap();
            }
            Err(_) => refused += 1,
        }
    }
    let several: usize = zones[2..].iter().sum();
    let many: usize = zones[9..].iter().sum();
    assert!(several > 700 && many > 120 && refused < 100, "{zones:?}");
}

/// The zones of every stored sheet agree with Sweep, at all its valuations or at some.
#[test]
fn stored_zones_agree_with_sweep() {
    let random = &mut Random::new(5);
    let mut swept = 0;
    for (n, record) in (1..).zip(records(&families())) {
        if let Ok(found) = answer(record) {
            let sheet = read(&record.file).unwrap();
            let agrees = held(random, &sheet, &found);
            assert_eq!(agrees, Ok(()), "record {n}");
            swept += 1;
        }
    }
    assert!(swept > 2000, "{swept}");
}

/// Stored zones have first valuations that are easily missed: above the least number of a parameter by itself,
/// with a first parameter above its range's lowest, below zero, and the only one.
#[test]
fn stored_first_valuations() {
    let mut counts = [0; 4];
    for record in records(&families()) {
        let Ok(found) = answer(record) else { continue };
        let valuations = all(&read(&record.file).unwrap().parameters);
        if valuations.len() > MOST_TRIED {
            continue;
        }
        for zone in &found.zones {
            let its: Vec<&Valuation> = valuations.iter().filter(|&&v| zone.holds(v)).collect();
            let least = [0, 1, 2, 3].map(|k| its.iter().map(|v| v[k]).min());
            let kinds = [
                least != zone.first.map(Some),
                zone.first[0] > valuations[0][0],
                zone.first.iter().any(|&x| x < 0),
                its.len() == 1,
            ];
            for (count, kind) in counts.iter_mut().zip(kinds) {
                *count += usize::from(kind);
            }
        }
    }
    assert!(counts.iter().all(|&count| count > 1000), "{counts:?}");
}
