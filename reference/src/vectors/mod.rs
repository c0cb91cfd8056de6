//! The stored test vectors of the sheet file: which files they are, and how they are stored.
//!
//! The files stand one after the other, each as its length (u16, little-endian) and its bytes. The
//! results are text, a line for each file.

pub mod damage;
pub mod limits;
mod lines;
pub mod version_2;

pub use lines::line;

use crate::family::Family;
use crate::random::Random;
use crate::samples::{biggest_sheet, random_sheet, sheet_a, sheet_b, sheet_c, Size};
use crate::sheet::{parameters_of, MOST_CLOCKS};
use crate::writer;

/// The names of the families whose files are the cases of `limits` and of `version_2`.
pub const LIMITS: &str = "at a limit and past it";
pub const VERSION_2: &str = "version 2: at a limit and past it";

/// All the families of files, in the order in which they are stored.
pub fn families() -> Vec<Family<Vec<u8>>> {
    let a = writer::file(&sheet_a());
    let b = writer::file(&sheet_b());
    let random = &mut Random::new(1);
    let mut list = Vec::new();
    let mut add = |name, records| list.push(Family { name, records });
    add("sheet A", vec![a.clone()]);
    add("sheet A cut short", damage::prefixes(&a));
    add("sheet A with a byte changed", damage::many_changes(&a));
    add("sheet B", vec![b.clone()]);
    add("sheet B cut short", damage::prefixes(&b));
    add("sheet B with a byte changed", damage::few_changes(&b));
    add(
        LIMITS,
        limits::cases().into_iter().map(|c| c.file).collect(),
    );
    add("small sheets", good(random, 1, Size::SMALL, 1200));
    add("middle sheets", good(random, 1, Size::MIDDLE, 250));
    add("large sheets", good(random, 1, Size::LARGE, 40));
    add("the biggest sheets", biggest(random, 1));
    add("bytes changed", damage::changed(random, 1, 1200));
    add("bytes cut off", damage::cut(random, 1, 100));
    add("bytes added", damage::lengthened(random, 1, 100));
    add("a body longer or shorter", damage::resized(random, 1, 500));
    add(
        "a border between bodies moved",
        damage::moved(random, 1, 200),
    );
    add("another route", damage::rerouted(random, 1, 400));
    add("random bodies", damage::noise(random, 1, 400));
    list.extend(in_version_2(&mut Random::new(9)));
    list
}

/// The families of version 2.
fn in_version_2(random: &mut Random) -> Vec<Family<Vec<u8>>> {
    let c = writer::file(&sheet_c());
    let mut list = Vec::new();
    let mut add = |name, records| list.push(Family { name, records });
    add("sheet C", vec![c.clone()]);
    add("sheet C cut short", damage::prefixes(&c));
    add("sheet C with a byte changed", damage::few_changes(&c));
    let cases = version_2::cases().into_iter();
    add(VERSION_2, cases.map(|c| c.file).collect());
    add("version 2: small sheets", good(random, 2, Size::SMALL, 120));
    add(
        "version 2: middle sheets",
        good(random, 2, Size::MIDDLE, 30),
    );
    add("version 2: large sheets", good(random, 2, Size::LARGE, 10));
    add("version 2: the biggest sheets", biggest(random, 2));
    add(
        "version 2: four ranges of any width",
        damage::widened(random, 60),
    );
    let counts = [120, 10, 10, 60, 25, 50, 50];
    let damaged = damage::every_kind(random, 2, counts);
    add("version 2: damaged files", damaged);
    list
}

/// A file as it is stored.
pub fn stored(file: &[u8]) -> Vec<u8> {
    let length = u16::try_from(file.len()).expect("a stored file has at most 65,535 bytes");
    [&length.to_le_bytes(), file].concat()
}

/// That many good files of that version up to that size.
fn good(random: &mut Random, version: u8, size: Size, count: usize) -> Vec<Vec<u8>> {
    (0..count)
        .map(|_| writer::file(&random_sheet(random, version, size)))
        .collect()
}

/// One of the biggest files of that version for each count of parameters and of clocks.
fn biggest(random: &mut Random, version: u8) -> Vec<Vec<u8>> {
    let mut files = Vec::new();
    for parameters in 0..=parameters_of(version) {
        for clocks in 1..=MOST_CLOCKS {
            let sheet = biggest_sheet(random, version, parameters, clocks as u8);
            files.push(writer::file(&sheet));
        }
    }
    files
}

#[cfg(test)]
mod tests {
    use super::*;

    /// A file is stored behind its length.
    #[test]
    fn stored_with_length() {
        assert_eq!(stored(&[]), [0, 0]);
        assert_eq!(stored(&[7, 8, 9]), [3, 0, 7, 8, 9]);
        assert_eq!(stored(&[5; 300])[..3], [44, 1, 5]);
    }

    /// Sheet A is the paper's: its length and where its bodies lie.
    #[test]
    fn sheet_a_is_the_papers() {
        let file = writer::file(&sheet_a());
        let ends: Vec<usize> = (1..=4)
            .map(|kind| crate::sheet::body(&file, kind).unwrap().len())
            .collect();
        assert_eq!((file.len(), ends), (62, vec![5, 16, 17, 2]));
        assert_eq!(&file[60..], [1, 0]);
    }
}
