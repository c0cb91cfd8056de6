//! Which bytes and numbers are thrown at Sweep.

use reference::planned::{planned, random_shape, valuation, Planned, Shape};
use reference::random::Random;
use reference::samples::{biggest_sheet, random_sheet, Size};
use reference::sheet::{parameters_of, read, Parameter, Sheet, MOST_BYTES, MOST_PARAMETERS};
use reference::valuations::Valuation;
use reference::vectors::damage;
use reference::writer;

/// The most bytes of a case: more than a sheet file may have.
pub const MOST: usize = 3 * MOST_BYTES;

/// The bytes of a file, and four numbers.
pub struct Case {
    pub file: Vec<u8>,
    pub numbers: Valuation,
}

/// A case of any kind.
pub fn case(random: &mut Random) -> Case {
    let file = match random.below(16) {
        0 => bytes(random),
        1 => contents_only(random),
        2 => wrong_size(random),
        3..=7 => damaged(random),
        _ => good(random),
    };
    let numbers = numbers(random, &file);
    Case { file, numbers }
}

/// A good file.
fn good(random: &mut Random) -> Vec<u8> {
    writer::file(&good_sheet(random))
}

/// A version, one or the other as often.
fn version(random: &mut Random) -> u8 {
    1 + random.below(2) as u8
}

/// A good sheet of either version, most often one with a run at some valuation.
fn good_sheet(random: &mut Random) -> Sheet {
    let version = version(random);
    let most = parameters_of(version);
    match random.below(64) {
        0 => {
            let (parameters, clocks) = (random.below(most + 1), 1 + random.below(4));
            biggest_sheet(random, version, parameters, clocks as u8)
        }
        1 | 2 => random_sheet(random, version, Size::LARGE),
        3..=9 => random_sheet(random, version, Size::MIDDLE),
        10..=19 => random_sheet(random, version, Size::SMALL),
        n => {
            let moves = if n < 30 { 32 } else { 5 };
            let guards = random.below(5);
            let shape = Shape {
                version,
                parameters: random.below(most + 1),
                ..random_shape(random, moves, guards, 63)
            };
            planned(random, shape).sheet
        }
    }
}

/// A good file of either version that was damaged.
fn damaged(random: &mut Random) -> Vec<u8> {
    let version = version(random);
    let mut files = match random.below(9) {
        0 => damage::cut(random, version, 1),
        1 => damage::lengthened(random, version, 1),
        2 => damage::resized(random, version, 1),
        3 => damage::moved(random, version, 1),
        4 => damage::rerouted(random, version, 1),
        5 => damage::noise(random, version, 1),
        6 => vec![flipped(random)],
        7 => damage::widened(random, 1),
        _ => damage::changed(random, version, 1),
    };
    files.pop().unwrap_or_default()
}

/// A good file of any size with some bits flipped.
fn flipped(random: &mut Random) -> Vec<u8> {
    let mut file = good(random);
    for _ in 0..=random.below(3) {
        let i = random.below(file.len());
        file[i] ^= 1 << random.below(8);
    }
    file
}

/// Random bytes.
fn bytes(random: &mut Random) -> Vec<u8> {
    let length = length(random);
    (0..length).map(|_| random.byte()).collect()
}

/// Good contents for four bodies of random bytes.
fn contents_only(random: &mut Random) -> Vec<u8> {
    let mut bodies: [Vec<u8>; 4] = Default::default();
    for body in &mut bodies {
        let length = random.below(60);
        *body = (0..length).map(|_| random.byte() % 8).collect();
    }
    writer::assemble(version(random), &bodies)
}

/// A file with too few or too many bytes, or close to that.
fn wrong_size(random: &mut Random) -> Vec<u8> {
    let mut file = good(random);
    let length = match random.below(4) {
        0 => random.below(24),
        1 => MOST_BYTES - 1 + random.below(4),
        2 => MOST_BYTES + random.below(MOST - MOST_BYTES + 1),
        _ => random.below(MOST_BYTES),
    };
    file.resize(length, random.byte());
    file
}

/// A length, most often a small one.
fn length(random: &mut Random) -> usize {
    match random.below(4) {
        0 => random.below(MOST + 1),
        1 => random.below(MOST_BYTES + 2),
        _ => random.below(100),
    }
}

/// Four numbers: most often a valuation of the file's sheet, if it holds one.
fn numbers(random: &mut Random, file: &[u8]) -> Valuation {
    let parameters = read(file).map(|sheet| sheet.parameters);
    let parameters = parameters.unwrap_or_default();
    let mut v = valuation(random, &parameters);
    if random.once_in(8) {
        let k = random.below(MOST_PARAMETERS);
        v[k] = strange(random, parameters.get(k));
    }
    if random.once_in(24) {
        v.fill_with(|| random.word());
    }
    v
}

/// A number at an end of a parameter's range or just past it, at an end of 64 bits, or any.
fn strange(random: &mut Random, parameter: Option<&Parameter>) -> i64 {
    let (low, high) = parameter.map_or((0, 0), |p| (i64::from(p.lowest), i64::from(p.highest)));
    match random.below(10) {
        0 => low - 1,
        1 => high + 1,
        2 => low,
        3 => high,
        4 => low + (1 << 16),
        5 => high - (1 << 32),
        6 => i64::MIN + random.below(3) as i64,
        7 => i64::MAX - random.below(3) as i64,
        8 => random.below(2001) as i64 - 1000,
        _ => random.word(),
    }
}

/// The case of a planned sheet at the valuation that it was planned for.
pub fn planned_case(random: &mut Random) -> Case {
    let version = version(random);
    let shape = Shape {
        version,
        parameters: random.below(parameters_of(version) + 1),
        ..random_shape(random, 32, 6, 63)
    };
    let Planned { sheet, valuation } = planned(random, shape);
    Case {
        file: writer::file(&sheet),
        numbers: valuation,
    }
}
