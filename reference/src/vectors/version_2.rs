//! The rules that are new with version 2 (paper 02, request (i)), each at its limit and just past it, with results
//! written by hand.
//!
//! In sheet C body 1 has its count at 22 and its ranges at 23, 27, 31 and 35. Body 2 has clocks at 39, locations at
//! 40, and location 0 with its count at 41, and at 42 to 55 its guard: a, b, relation and zero byte at 42 to 45,
//! constant at 46, coefficients at 48, 50, 52 and 54. Location 1 has its count at 56. Body 3 has its count at 57, and
//! transition 0 with from, to, resets and count at 58 to 61, and at 62 to 75 its guard. Body 4 has its count at 76, and
//! the route's byte at 77.

use super::limits::Reply::{Refused, Taken};
use super::limits::{case, early_and_late, Case, Reply};
use crate::random::Random;
use crate::samples::{
    at_most, biggest_sheet, c_with, in_version_2, location, of_widths, range, sheet_a, sheet_b,
    sheet_c, transition,
};
use crate::sheet::{Sheet, MOST_GUARDS, MOST_LOCATIONS, MOST_TRANSITIONS};
use crate::writer;

/// All cases.
pub fn cases() -> Vec<Case> {
    let mut list = versions();
    list.extend(sizes());
    list.extend(parameters());
    list.extend(coefficients());
    list.extend(guards());
    list.extend(early_and_late(&sheet_c(), [22, 39, 57, 76, 78]));
    list.extend(products());
    list.extend(order());
    list
}

/// A case of a sheet.
fn of(name: &'static str, sheet: &Sheet, result: Reply) -> Case {
    case(name, writer::file(sheet), result)
}

/// Sheet C with a byte changed at each of those offsets.
fn c_bytes(changes: &[(usize, u8)]) -> Vec<u8> {
    let mut file = writer::file(&sheet_c());
    for &(at, value) in changes {
        file[at] = value;
    }
    file
}

/// Sheet C with a two-byte field changed at that offset.
fn c_field(at: usize, value: i16) -> Vec<u8> {
    let [low, high] = value.to_le_bytes();
    c_bytes(&[(at, low), (at + 1, high)])
}

/// Versions 1 and 2, and those that there are not. In version 2 the guards of sheets A and B have two bytes too few,
/// and in version 1 sheet C has a parameter too many.
fn versions() -> Vec<Case> {
    let mut list = vec![
        of("sheet C", &sheet_c(), Taken),
        of("sheet A in version 2", &in_version_2(sheet_a()), Taken),
        of("sheet B in version 2", &in_version_2(sheet_b()), Taken),
        case("sheet C as version 1", c_bytes(&[(0, 1)]), Refused(4, 22)),
    ];
    for version in [0, 3, 4, 129, 130, 255] {
        let a = Sheet {
            version,
            ..sheet_a()
        };
        list.push(of("sheet A, another version", &a, Refused(3, 0)));
        let c = c_bytes(&[(0, version)]);
        list.push(case("sheet C, another version", c, Refused(3, 0)));
    }
    let three = [(0, 3), (1, 5)];
    list.push(case(
        "version 3 and five bodies",
        c_bytes(&three),
        Refused(3, 0),
    ));
    list.push(case("five bodies", c_bytes(&[(1, 5)]), Refused(3, 1)));
    list
}

/// A good sheet of 4,096 bytes and one of 4,097, with 277 guards.
fn sizes() -> Vec<Case> {
    let guard = at_most(0, 4, 1000, [-1000, 1000, -999, 999]);
    let with = |moves: usize| {
        let full = vec![guard; MOST_GUARDS];
        let mut transitions = vec![transition(0, 0, 0b1111, &full); MOST_TRANSITIONS];
        transitions[30].guards.truncate(1);
        transitions[31].guards.clear();
        Sheet {
            version: 2,
            parameters: vec![range(-1, 1); 4],
            clocks: 4,
            locations: vec![location(&full); MOST_LOCATIONS],
            transitions,
            route: (0..moves as u8).collect(),
        }
    };
    let biggest = biggest_sheet(&mut Random::new(3), 2, 4, 4);
    vec![
        of("a good sheet of 4,096 bytes", &with(31), Taken),
        of(
            "a good sheet but for its 4,097 bytes",
            &with(32),
            Refused(2, 0),
        ),
        of("the biggest sheet of its shape", &biggest, Taken),
        case("21 bytes", c_bytes(&[])[..21].to_vec(), Refused(2, 0)),
        case("22 bytes", c_bytes(&[])[..22].to_vec(), Refused(3, 5)),
    ]
}

/// Body 1: 0 to 4 parameters, and a fourth range at its limits.
fn parameters() -> Vec<Case> {
    let bare = |n: usize| {
        c_with(|s| {
            s.parameters = vec![range(1, 2); n];
            s.locations[0].invariants[0].coefficients = [0; 4];
            s.transitions[0].guards[0].coefficients = [0; 4];
        })
    };
    let mut list: Vec<Case> = (0..=4)
        .map(|n| of("0 to 4 parameters", &bare(n), Taken))
        .collect();
    list.push(of("five parameters", &bare(5), Refused(4, 22)));
    list.push(case(
        "255 parameters",
        c_bytes(&[(22, 255)]),
        Refused(4, 22),
    ));
    let mut a = sheet_a();
    a.parameters = vec![range(1, 2); 4];
    list.push(of("four parameters in version 1", &a, Refused(4, 22)));
    for (lowest, highest, result) in [
        (-1000, -937, Taken),
        (-1000, -936, Refused(4, 37)),
        (937, 1000, Taken),
        (937, 1001, Refused(4, 37)),
        (-1001, -1000, Refused(4, 35)),
        (1, 0, Refused(4, 37)),
    ] {
        let sheet = c_with(|s| {
            s.parameters[0] = range(0, 0);
            s.parameters[3] = range(lowest, highest);
        });
        list.push(of("a fourth range", &sheet, result));
    }
    list
}

/// The coefficients of four parameters, those of the parameters that a sheet lacks, and their order.
fn coefficients() -> Vec<Case> {
    let mut list = Vec::new();
    for constant in [46, 66] {
        for at in [0, 2, 4, 6, 8].map(|k| constant + k) {
            for x in [-1000, 1000] {
                list.push(case("a number within 1,000", c_field(at, x), Taken));
            }
            for x in [-1001, 1001] {
                list.push(case("a number past 1,000", c_field(at, x), Refused(4, at)));
            }
        }
    }
    for n in 0..4 {
        let with = |k: usize, x| {
            c_with(|s| {
                s.parameters.truncate(n);
                for guard in s.guards_mut().flatten() {
                    guard.coefficients = [0; 4];
                }
                s.locations[0].invariants[0].coefficients[k] = x;
            })
        };
        for k in 0..4 {
            let place = 32 + 4 * n + 2 * k;
            let result = |right| if right { Taken } else { Refused(4, place) };
            let name = "a coefficient, 0 to 3 parameters";
            list.push(of(name, &with(k, 1000), result(k < n)));
            list.push(of(name, &with(k, -1), result(k < n)));
        }
    }
    list
}

/// Guards of 14 bytes: up to six of them, and their own bytes in both bodies.
fn guards() -> Vec<Case> {
    let guard = at_most(1, 0, 5, [2, 0, 0, -2]);
    let stay = |n: usize| c_with(|s| s.locations[0].invariants = vec![guard; n]);
    let go = |n: usize| c_with(|s| s.transitions[0].guards = vec![guard; n]);
    let mut list = vec![
        of("no invariants", &stay(0), Taken),
        of("6 invariants", &stay(6), Taken),
        of("7 invariants", &stay(7), Refused(4, 41)),
        of("no guards", &go(0), Taken),
        of("6 guards", &go(6), Taken),
        of("7 guards", &go(7), Refused(4, 61)),
        case("resets of clock 2", c_bytes(&[(60, 2)]), Refused(4, 60)),
        case("a route byte past it", c_bytes(&[(77, 1)]), Refused(4, 77)),
        case("from location 1", c_bytes(&[(58, 1)]), Refused(5, 77)),
    ];
    for at in [42, 62] {
        list.extend([
            case("clock 2 of 1", c_bytes(&[(at, 2)]), Refused(4, at)),
            case("a relation", c_bytes(&[(at + 2, 2)]), Refused(4, at + 2)),
            case("a zero byte", c_bytes(&[(at + 3, 1)]), Refused(4, at + 3)),
        ]);
    }
    list.push(case("clocks 1, 1", c_bytes(&[(43, 1)]), Refused(4, 43)));
    list.push(case("clocks 0, 0", c_bytes(&[(63, 0)]), Refused(4, 63)));
    list
}

/// Refusal 16: products of widths of 262,144 and less, and of more.
fn products() -> Vec<Case> {
    let right: [&[i16]; 9] = [
        &[],
        &[64],
        &[64, 64, 64],
        &[64, 64, 64, 1],
        &[64, 1, 64, 64],
        &[8, 64, 32, 16],
        &[47, 11, 39, 13],
        &[22, 22, 23, 23],
        &[1, 1, 1, 1],
    ];
    let wrong: [&[i16]; 10] = [
        &[64, 64, 64, 2],
        &[64, 64, 2, 64],
        &[64, 2, 64, 64],
        &[2, 64, 64, 64],
        &[57, 2, 50, 46],
        &[9, 64, 32, 16],
        &[8, 64, 33, 16],
        &[22, 23, 23, 23],
        &[32, 32, 32, 32],
        &[64, 64, 64, 64],
    ];
    let within = right.map(|w| of("a product within 262,144", &of_widths(w), Taken));
    let past = wrong.map(|w| of("a product past 262,144", &of_widths(w), Refused(16, 0)));
    let three = Sheet {
        version: 1,
        ..of_widths(&[64, 64, 64])
    };
    let mut list: Vec<Case> = within.into_iter().chain(past).collect();
    list.push(of("three ranges of 64 in version 1", &three, Taken));
    let mut far = of_widths(&[64, 64, 64, 2]);
    far.parameters = vec![
        range(-1000, -937),
        range(937, 1000),
        range(-32, 31),
        range(5, 6),
    ];
    list.push(of("ranges far from 0", &far, Refused(16, 0)));
    list
}

/// Refusal 16 beside another one: 2, 3 and 4 come before it, wherever the wrong field is, and 5 after it.
fn order() -> Vec<Case> {
    let wide = c_with(|s| s.parameters = [0, 1, 2, 3].map(|k| range(k, k + 40)).to_vec());
    let file = writer::file(&wide);
    let with = |changes: &[(usize, u8)]| {
        let mut file = file.clone();
        for &(at, value) in changes {
            file[at] = value;
        }
        file
    };
    let mut bodies = writer::bodies(&wide);
    bodies[3].push(0);
    let longer = writer::assemble(2, &bodies);
    let short = file[..77].to_vec();
    let mut long = file.clone();
    long.resize(4097, 0);
    vec![
        case("16", file.clone(), Refused(16, 0)),
        case("16 and 2", long, Refused(2, 0)),
        case("16 and 3, the version", with(&[(0, 3)]), Refused(3, 0)),
        case("16 and 3, a length", short, Refused(3, 20)),
        case("16 and 4, a range", with(&[(37, 67)]), Refused(4, 37)),
        case("16 and 4, clocks", with(&[(39, 5)]), Refused(4, 39)),
        case("16 and 4, a relation", with(&[(44, 2)]), Refused(4, 44)),
        case("16 and 4, a coefficient", with(&[(75, 9)]), Refused(4, 74)),
        case("16 and 4, a route byte", with(&[(77, 1)]), Refused(4, 77)),
        case("16 and 4, a byte left over", longer, Refused(4, 78)),
        case("16 and 5", with(&[(58, 1)]), Refused(16, 0)),
        case("16, 5 and 4", with(&[(58, 1), (77, 1)]), Refused(4, 77)),
    ]
}

#[cfg(test)]
mod tests {
    use super::*;
    use crate::sheet::{body, read};

    /// The reader gives each case the result that is written beside it.
    #[test]
    fn results_are_as_written() {
        for case in cases() {
            let found = read(&case.file).err();
            assert_eq!(found, case.result.refusal(), "{}", case.name);
        }
    }

    /// The coefficients of a guard are in the order of the parameters, the fourth last; in version 1 it is 0, and the
    /// version is part of the sheet.
    #[test]
    fn fields_are_where_they_are() {
        let file = writer::file(&sheet_c());
        assert_eq!(file.len(), 78);
        assert_eq!(file[46..56], [236, 255, 1, 0, 254, 255, 3, 0, 4, 0]);
        assert_eq!(file[70..76], [0, 0, 0, 0, 255, 255]);
        let sheet = read(&file).unwrap();
        assert_eq!(sheet, sheet_c());
        assert_eq!(sheet.locations[0].invariants[0].coefficients, [1, -2, 3, 4]);
        let [one, two] = [sheet_a(), in_version_2(sheet_a())];
        let [a, again] = [&one, &two].map(|sheet| read(&writer::file(sheet)).unwrap());
        assert_eq!((a.version, again.version), (1, 2));
        assert_ne!(a, again);
        assert_eq!(a.locations, again.locations);
        assert_eq!(writer::file(&two).len(), writer::file(&one).len() + 2 * 2);
    }

    /// What is no part of a sheet is not written, and another version is laid out as 1.
    #[test]
    fn written_as_version_1() {
        let mut sheet = sheet_a();
        sheet.locations[0].invariants[0].coefficients[3] = 7;
        assert_eq!(writer::file(&sheet), writer::file(&sheet_a()));
        let mut file = writer::file(&sheet_a());
        file[0] = 3;
        sheet.version = 3;
        assert_eq!(writer::file(&sheet), file);
    }

    /// `body` does not look at what a body holds: nor at 16.
    #[test]
    fn bodies_are_handed_out() {
        let wide = writer::file(&of_widths(&[64; 4]));
        assert_eq!(read(&wide).map_err(|refusal| refusal.number), Err(16));
        assert_eq!(body(&wide, 1), Ok(&wide[22..39]));
        assert_eq!(body(&wide, 4), Ok(&wide[43..44]));
    }
}
