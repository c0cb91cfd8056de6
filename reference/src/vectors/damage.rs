//! Damaged files of either version: good ones cut, changed and put together wrongly, and random bodies.

use crate::random::Random;
use crate::samples::{random_range, random_sheet, Size};
use crate::sheet::MOST_PARAMETERS;
use crate::writer;

/// Every beginning of a file but the whole of it.
pub fn prefixes(file: &[u8]) -> Vec<Vec<u8>> {
    (0..file.len()).map(|n| file[..n].to_vec()).collect()
}

/// The file with each byte changed by itself: one more, one less, 0, 255, and each bit flipped.
pub fn many_changes(file: &[u8]) -> Vec<Vec<u8>> {
    changes(file, |x| {
        let mut values = vec![x.wrapping_add(1), x.wrapping_sub(1), 0, 255];
        values.extend((0..8).map(|k| x ^ (1 << k)));
        values
    })
}

/// The file with each byte changed by itself: one more, one less and 255.
pub fn few_changes(file: &[u8]) -> Vec<Vec<u8>> {
    changes(file, |x| vec![x.wrapping_add(1), x.wrapping_sub(1), 255])
}

/// The file with each byte changed by itself to each of the values that are given for it, each
/// other value once.
fn changes(file: &[u8], values: impl Fn(u8) -> Vec<u8>) -> Vec<Vec<u8>> {
    let mut files = Vec::new();
    for i in 0..file.len() {
        let mut seen = vec![file[i]];
        for value in values(file[i]) {
            if !seen.contains(&value) {
                seen.push(value);
                let mut changed = file.to_vec();
                changed[i] = value;
                files.push(changed);
            }
        }
    }
    files
}

/// Damaged files of every kind that is random, that many of each, in the order of the functions below.
pub fn every_kind(random: &mut Random, version: u8, counts: [usize; 7]) -> Vec<Vec<u8>> {
    let kinds = [changed, cut, lengthened, resized, moved, rerouted, noise];
    let files = kinds.into_iter().zip(counts);
    files
        .flat_map(|(kind, n)| kind(random, version, n))
        .collect()
}

/// That many small good files, each with one to three bytes changed.
pub fn changed(random: &mut Random, version: u8, count: usize) -> Vec<Vec<u8>> {
    many(count, || {
        let mut file = small(random, version);
        for _ in 0..=random.below(3) {
            let i = random.below(file.len());
            file[i] = near(random, file[i]);
        }
        file
    })
}

/// That many small good files, each with bytes cut off at its end.
pub fn cut(random: &mut Random, version: u8, count: usize) -> Vec<Vec<u8>> {
    many(count, || {
        let mut file = small(random, version);
        file.truncate(random.below(file.len()));
        file
    })
}

/// That many small good files, each with one to twenty bytes added at its end.
pub fn lengthened(random: &mut Random, version: u8, count: usize) -> Vec<Vec<u8>> {
    many(count, || {
        let mut file = small(random, version);
        for _ in 0..=random.below(20) {
            file.push(random.byte());
        }
        file
    })
}

/// That many small good files, each with one body longer or shorter and contents that fit.
pub fn resized(random: &mut Random, version: u8, count: usize) -> Vec<Vec<u8>> {
    many(count, || {
        let mut bodies = writer::bodies(&random_sheet(random, version, Size::SMALL));
        let k = random.below(4);
        resize(random, &mut bodies[k]);
        writer::assemble(version, &bodies)
    })
}

/// Cuts bytes off a body's end, or puts one or two bytes in anywhere.
fn resize(random: &mut Random, body: &mut Vec<u8>) {
    if random.once_in(2) {
        let most = body.len().min(14);
        body.truncate(body.len() - 1 - random.below(most));
    } else {
        for _ in 0..=random.below(2) {
            let value = random.byte();
            body.insert(random.below(body.len() + 1), near(random, value % 2));
        }
    }
}

/// That many small good files, each with one to three bytes moved over the border from one body
/// to the next or back, and contents that fit.
pub fn moved(random: &mut Random, version: u8, count: usize) -> Vec<Vec<u8>> {
    many(count, || {
        let mut bodies = writer::bodies(&random_sheet(random, version, Size::SMALL));
        let k = random.below(3);
        let forward = random.once_in(2);
        for _ in 0..=random.below(3) {
            move_one(&mut bodies, k, forward);
        }
        writer::assemble(version, &bodies)
    })
}

/// Moves a byte from the end of body k to the start of the next, or back, if there is one.
fn move_one(bodies: &mut [Vec<u8>; 4], k: usize, forward: bool) {
    if forward {
        if let Some(byte) = bodies[k].pop() {
            bodies[k + 1].insert(0, byte);
        }
    } else if !bodies[k + 1].is_empty() {
        let byte = bodies[k + 1].remove(0);
        bodies[k].push(byte);
    }
}

/// That many good files, each with one entry of its route changed or with a random route; some of
/// these still link.
pub fn rerouted(random: &mut Random, version: u8, count: usize) -> Vec<Vec<u8>> {
    many(count, || {
        let mut sheet = random_sheet(random, version, Size::ROUTED);
        let transitions = sheet.transitions.len();
        if transitions > 0 && !sheet.route.is_empty() && random.below(4) > 0 {
            let i = random.below(sheet.route.len());
            sheet.route[i] = random.below(transitions) as u8;
        } else if transitions > 0 {
            let length = random.below(6);
            sheet.route = (0..length)
                .map(|_| random.below(transitions) as u8)
                .collect();
        }
        writer::file(&sheet)
    })
}

/// That many files with random bodies of small numbers, and contents that fit. Some begin with
/// bodies of a good file, so that the later ones are read.
pub fn noise(random: &mut Random, version: u8, count: usize) -> Vec<Vec<u8>> {
    many(count, || {
        let mut bodies = writer::bodies(&random_sheet(random, version, Size::SMALL));
        for body in bodies.iter_mut().skip(random.below(4)) {
            let length = random.below(20);
            *body = (0..length).map(|_| near(random, 0)).collect();
        }
        writer::assemble(version, &bodies)
    })
}

/// That many small files of version 2 with four ranges of any width: some have more valuations than a sheet may have.
pub fn widened(random: &mut Random, count: usize) -> Vec<Vec<u8>> {
    let mut files = Vec::new();
    while files.len() < count {
        let mut sheet = random_sheet(random, 2, Size::SMALL);
        if sheet.parameters.len() == MOST_PARAMETERS {
            sheet.parameters.fill_with(|| random_range(random));
            files.push(writer::file(&sheet));
        }
    }
    files
}

/// A small good file.
fn small(random: &mut Random, version: u8) -> Vec<u8> {
    writer::file(&random_sheet(random, version, Size::SMALL))
}

/// A byte close to that one in most cases, and otherwise any.
fn near(random: &mut Random, byte: u8) -> u8 {
    match random.below(8) {
        0 => random.byte(),
        1 => 0,
        2 => byte ^ (1 << random.below(8)),
        3 => byte.wrapping_sub(1),
        4 => byte.wrapping_add(2),
        _ => byte.wrapping_add(1),
    }
}

/// That many files, one after the other.
fn many(count: usize, mut file: impl FnMut() -> Vec<u8>) -> Vec<Vec<u8>> {
    (0..count).map(|_| file()).collect()
}
