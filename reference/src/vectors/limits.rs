//! Each rule of the file at its limit and just past it, with the result that the paper gives. The
//! results here are written by hand, and a test holds the reader to them.
//!
//! In sheet A body 1 has its count at 22, lowest at 23 and highest at 25. Body 2 has clocks at 27,
//! locations at 28, and location 0 with its count at 29, and at 30 to 41 its guard: a, b, relation
//! and zero byte at 30 to 33, constant at 34, coefficients at 36, 38 and 40. Location 1 has its
//! count at 42. Body 3 has its count at 43, and transition 0 with from, to, resets and count at 44
//! to 47, and at 48 to 59 its guard. Body 4 has its count at 60, and the route's byte at 61.

use crate::random::Random;
use crate::samples::{
    self, at_most, below, biggest_sheet, location, range, sheet_a, sheet_b, transition,
};
use crate::sheet::{Guard, Refusal, Sheet};
use crate::writer;
use Reply::{Refused, Taken};

/// The result that the paper gives: a sheet, or a refusal's number and place.
#[derive(Clone, Copy)]
pub enum Reply {
    Taken,
    Refused(u8, usize),
}

/// What is tried, the file, and its result.
pub struct Case {
    pub name: &'static str,
    pub file: Vec<u8>,
    pub result: Reply,
}

impl Reply {
    /// The refusal, if it is one.
    pub fn refusal(self) -> Option<Refusal> {
        match self {
            Taken => None,
            Refused(number, place) => Some(Refusal { number, place }),
        }
    }
}

/// All cases, in the order of the file's fields.
pub fn cases() -> Vec<Case> {
    let mut list = sizes();
    list.extend(contents());
    list.extend(ranges());
    list.extend(counts());
    list.extend(clocks());
    list.extend(numbers());
    list.extend(transitions());
    list.extend(ends());
    list.extend(order());
    list.extend(routes());
    list
}

/// A case.
pub(super) fn case(name: &'static str, file: Vec<u8>, result: Reply) -> Case {
    Case { name, file, result }
}

/// The file of sheet A after a change of the sheet.
fn a_with(change: impl Fn(&mut Sheet)) -> Vec<u8> {
    writer::file(&samples::a_with(change))
}

/// The file of sheet A with a byte changed at each of those offsets.
fn a_bytes(changes: &[(usize, u8)]) -> Vec<u8> {
    let mut file = writer::file(&sheet_a());
    for &(at, value) in changes {
        file[at] = value;
    }
    file
}

/// The file of sheet A with a two-byte field changed at that offset.
fn a_field(at: usize, value: i16) -> Vec<u8> {
    let [low, high] = value.to_le_bytes();
    a_bytes(&[(at, low), (at + 1, high)])
}

/// The file of sheet A with other bodies, and contents that fit.
fn a_bodies(change: impl Fn(&mut [Vec<u8>; 4])) -> Vec<u8> {
    let mut bodies = writer::bodies(&sheet_a());
    change(&mut bodies);
    writer::assemble(1, &bodies)
}

/// Refusal 2: the file's size.
fn sizes() -> Vec<Case> {
    let cut = |n: usize| writer::file(&sheet_a())[..n].to_vec();
    let longer = |n: usize| a_bodies(|b| b[3].resize(n - 60, 0));
    let empty = || a_bodies(|b| *b = Default::default());
    let biggest = writer::file(&biggest_sheet(&mut Random::new(3), 1, 3, 4));
    vec![
        case("no byte", cut(0), Refused(2, 0)),
        case("21 bytes", cut(21), Refused(2, 0)),
        case("22 bytes, lengths of sheet A", cut(22), Refused(3, 5)),
        case("22 zero bytes", vec![0; 22], Refused(3, 0)),
        case(
            "22 bytes, good contents, lengths 0",
            empty(),
            Refused(4, 22),
        ),
        case("the biggest sheet, of 3,671 bytes", biggest, Taken),
        case("4,096 bytes", longer(4096), Refused(4, 62)),
        case("4,097 bytes", longer(4097), Refused(2, 0)),
        case("4,097 zero bytes", vec![0; 4097], Refused(2, 0)),
    ]
}

/// Refusal 3: the contents.
fn contents() -> Vec<Case> {
    let mut list = vec![
        case("version 0", a_bytes(&[(0, 0)]), Refused(3, 0)),
        case(
            "version 2, 12 bytes a guard",
            a_bytes(&[(0, 2)]),
            Refused(4, 43),
        ),
        case("three entries", a_bytes(&[(1, 3)]), Refused(3, 1)),
        case("five entries", a_bytes(&[(1, 5)]), Refused(3, 1)),
        case(
            "4 and a kind wrong",
            a_bytes(&[(1, 5), (2, 0)]),
            Refused(3, 1),
        ),
        case("kind 4 last but one", a_bytes(&[(12, 4)]), Refused(3, 12)),
        case("kinds 2, 1", a_bytes(&[(2, 2), (7, 1)]), Refused(3, 2)),
        case("offset 1 of 65,535", a_field(3, -1), Refused(3, 3)),
        case("length 1 of 65,535", a_field(5, -1), Refused(3, 5)),
        case("length 1 past the end", a_field(5, 41), Refused(3, 5)),
        case("length 1 to the end", a_field(5, 40), Refused(3, 8)),
        case("length 3 past the end", a_field(15, 20), Refused(3, 15)),
        case("length 4 past the end", a_field(20, 3), Refused(3, 20)),
        case("length 4 before the end", a_field(20, 1), Refused(3, 20)),
        case("length 4 of 0", a_field(20, 0), Refused(3, 20)),
        case(
            "an offset and a field",
            a_bytes(&[(18, 0), (22, 9)]),
            Refused(3, 18),
        ),
    ];
    for entry in 0..4 {
        let at = 2 + 5 * entry;
        let file = writer::file(&sheet_a());
        let kind = a_bytes(&[(at, file[at] + 1)]);
        let offset = a_bytes(&[(at + 1, file[at + 1] + 1)]);
        let before = a_bytes(&[(at + 1, file[at + 1] - 1)]);
        let high = a_bytes(&[(at + 2, 1)]);
        list.push(case("a kind one more", kind, Refused(3, at)));
        list.push(case("an offset one more", offset, Refused(3, at + 1)));
        list.push(case("an offset one less", before, Refused(3, at + 1)));
        list.push(case("an offset 256 more", high, Refused(3, at + 1)));
    }
    let all = |k: usize| {
        let whole = writer::bodies(&sheet_a()).concat();
        let mut bodies: [Vec<u8>; 4] = Default::default();
        bodies[k] = whole;
        writer::assemble(1, &bodies)
    };
    list.push(case("all bytes in body 1", all(0), Refused(4, 27)));
    list.push(case("all bytes in body 2", all(1), Refused(4, 22)));
    list.push(case("all bytes in body 4", all(3), Refused(4, 22)));
    list
}

/// Body 1.
fn ranges() -> Vec<Case> {
    let one = |lowest, highest| a_with(|s| s.parameters[0] = range(lowest, highest));
    let bare = |n: usize| {
        a_with(|s| {
            s.parameters = vec![range(1, 2); n];
            s.locations[0].invariants[0].coefficients = [0; 4];
        })
    };
    let second = |lowest, highest| a_with(|s| s.parameters.push(range(lowest, highest)));
    vec![
        case("range 0..63", one(0, 63), Taken),
        case("range 0..64", one(0, 64), Refused(4, 25)),
        case("range 0..0", one(0, 0), Taken),
        case("range 1..0", one(1, 0), Refused(4, 25)),
        case("range -1..-2", one(-1, -2), Refused(4, 25)),
        case("range -32..31", one(-32, 31), Taken),
        case("range -32..32", one(-32, 32), Refused(4, 25)),
        case("range -1000..-937", one(-1000, -937), Taken),
        case("range -1000..-936", one(-1000, -936), Refused(4, 25)),
        case("range -1001..-1000", one(-1001, -1000), Refused(4, 23)),
        case("range -1001..-1001", one(-1001, -1001), Refused(4, 23)),
        case("range 937..1000", one(937, 1000), Taken),
        case("range 1000..1000", one(1000, 1000), Taken),
        case("range 1000..1001", one(1000, 1001), Refused(4, 25)),
        case("range 1001..1001", one(1001, 1001), Refused(4, 23)),
        case("range -1000..1000", one(-1000, 1000), Refused(4, 25)),
        case("range -1000..-1001", one(-1000, -1001), Refused(4, 25)),
        case("range -32768..32767", one(-32768, 32767), Refused(4, 23)),
        case("range 0..32767", one(0, 32767), Refused(4, 25)),
        case("range 0..-32768", one(0, -32768), Refused(4, 25)),
        case("no parameter", bare(0), Taken),
        case(
            "no parameter, a coefficient",
            a_with(|s| s.parameters.clear()),
            Refused(4, 32),
        ),
        case("two parameters", bare(2), Taken),
        case("three parameters", bare(3), Taken),
        case("four parameters", bare(4), Refused(4, 22)),
        case("255 parameters", a_bytes(&[(22, 255)]), Refused(4, 22)),
        case("a second range at its limit", second(7, 70), Taken),
        case("a second range past it", second(7, 71), Refused(4, 29)),
        case("a second lowest past it", second(-1001, 0), Refused(4, 27)),
    ]
}

/// The counts of body 2, and of guards.
fn counts() -> Vec<Case> {
    let guard = at_most(1, 0, 5, [2, 0, 0, 0]);
    let stay = |n: usize| a_with(|s| s.locations[0].invariants = vec![guard; n]);
    let go = |n: usize| a_with(|s| s.transitions[0].guards = vec![guard; n]);
    let locations = |n: usize| a_with(|s| s.locations.resize(n, location(&[])));
    let clocks = |n: u8| a_with(|s| s.clocks = n);
    let alone = a_with(|s| {
        s.locations.truncate(1);
        s.transitions[0].to = 0;
    });
    vec![
        case("no clock", clocks(0), Refused(4, 27)),
        case("one clock", clocks(1), Taken),
        case("four clocks", clocks(4), Taken),
        case("five clocks", clocks(5), Refused(4, 27)),
        case("no location", a_bytes(&[(28, 0)]), Refused(4, 28)),
        case("one location", alone, Taken),
        case(
            "one location, to 1",
            a_with(|s| s.locations.truncate(1)),
            Refused(4, 44),
        ),
        case("16 locations", locations(16), Taken),
        case("17 locations", locations(17), Refused(4, 28)),
        case("no invariants", stay(0), Taken),
        case("6 invariants", stay(6), Taken),
        case("7 invariants", stay(7), Refused(4, 29)),
        case("255 invariants", a_bytes(&[(29, 255)]), Refused(4, 29)),
        case(
            "7 invariants, location 1",
            a_bytes(&[(42, 7)]),
            Refused(4, 42),
        ),
        case("no guards", go(0), Taken),
        case("6 guards", go(6), Taken),
        case("7 guards", go(7), Refused(4, 47)),
    ]
}

/// A guard's clocks, relation and zero byte.
fn clocks() -> Vec<Case> {
    let mut list = Vec::new();
    for (at, body3) in [(30, false), (48, true)] {
        let with = |clocks: u8, guard: Guard| {
            a_with(|s| {
                s.clocks = clocks;
                if body3 {
                    s.transitions[0].guards[0] = guard;
                } else {
                    s.locations[0].invariants[0] = guard;
                }
            })
        };
        let two = |clocks, a, b| with(clocks, at_most(a, b, 1, [0; 4]));
        let relation = |x| a_bytes(&[(at + 2, x)]);
        let zero = |x| a_bytes(&[(at + 3, x)]);
        list.extend([
            case("clocks 1, 0", two(1, 1, 0), Taken),
            case("clocks 0, 1", two(1, 0, 1), Taken),
            case("clocks 4, 0 of 4", two(4, 4, 0), Taken),
            case("clocks 0, 4 of 4", two(4, 0, 4), Taken),
            case("clocks 2, 0 of 1", two(1, 2, 0), Refused(4, at)),
            case("clocks 0, 2 of 1", two(1, 0, 2), Refused(4, at + 1)),
            case("clocks 5, 0 of 4", two(4, 5, 0), Refused(4, at)),
            case("clocks 0, 5 of 4", two(4, 0, 5), Refused(4, at + 1)),
            case("clocks 255, 0", two(4, 255, 0), Refused(4, at)),
            case("clocks 0, 255", two(4, 0, 255), Refused(4, at + 1)),
            case("clocks 0, 0", two(4, 0, 0), Refused(4, at + 1)),
            case("clocks 1, 1", two(4, 1, 1), Refused(4, at + 1)),
            case("clocks 1, 2", two(4, 1, 2), Refused(4, at + 1)),
            case("clocks 2, 2 of 1", two(1, 2, 2), Refused(4, at)),
            case("relation <", with(1, below(1, 0, 1, [0; 4])), Taken),
            case("relation 2", relation(2), Refused(4, at + 2)),
            case("relation 255", relation(255), Refused(4, at + 2)),
            case("zero byte 1", zero(1), Refused(4, at + 3)),
            case("zero byte 255", zero(255), Refused(4, at + 3)),
        ]);
    }
    list
}

/// A guard's constant and coefficients, of parameters that the sheet has and lacks.
fn numbers() -> Vec<Case> {
    let mut list = Vec::new();
    for constant in [34, 52] {
        let past = |at, x| case("a number past 1,000", a_field(at, x), Refused(4, at));
        let lacks = |at, x| {
            case(
                "a parameter that the sheet lacks",
                a_field(at, x),
                Refused(4, at),
            )
        };
        for at in [constant, constant + 2] {
            for x in [-1000, -1, 0, 1, 1000] {
                list.push(case("a number within 1,000", a_field(at, x), Taken));
            }
            for x in [-32768, -1001, 1001, 32767] {
                list.push(past(at, x));
            }
        }
        for at in [constant + 4, constant + 6] {
            for x in [-1001, -1000, -1, 1, 256, 1000, 1001] {
                list.push(lacks(at, x));
            }
        }
    }
    for n in 1..=3 {
        let with = |x| {
            a_with(|s| {
                s.parameters = vec![range(0, 1); n];
                s.locations[0].invariants[0].coefficients[n - 1] = x;
            })
        };
        let at = 34 + 4 * (n - 1) + 2 * n;
        list.push(case("the last parameter's coefficient", with(-1000), Taken));
        list.push(case(
            "the last parameter's, past it",
            with(-1001),
            Refused(4, at),
        ));
    }
    list
}

/// Body 3's counts and own fields.
fn transitions() -> Vec<Case> {
    let many = |n: usize| a_with(|s| s.transitions.resize(n, transition(1, 0, 1, &[])));
    let none = |route: &'static [u8]| {
        a_with(|s| {
            s.transitions.clear();
            s.route = route.to_vec();
        })
    };
    let resets = |clocks, x| {
        a_with(|s| {
            s.clocks = clocks;
            s.transitions[0].resets = x;
        })
    };
    vec![
        case("no transition, empty route", none(&[]), Taken),
        case("no transition, a route", none(&[0]), Refused(4, 45)),
        case("32 transitions", many(32), Taken),
        case("33 transitions", many(33), Refused(4, 43)),
        case("255 transitions", a_bytes(&[(43, 255)]), Refused(4, 43)),
        case("from 2 of 2", a_bytes(&[(44, 2)]), Refused(4, 44)),
        case("to 0", a_bytes(&[(45, 0)]), Taken),
        case("to 2 of 2", a_bytes(&[(45, 2)]), Refused(4, 45)),
        case(
            "from and to 255",
            a_bytes(&[(44, 255), (45, 255)]),
            Refused(4, 44),
        ),
        case("resets of the clock", resets(1, 1), Taken),
        case("resets past 1 clock", resets(1, 2), Refused(4, 46)),
        case("resets of 2 clocks", resets(2, 3), Taken),
        case("resets past 2 clocks", resets(2, 4), Refused(4, 46)),
        case("resets of 3 clocks", resets(3, 7), Taken),
        case("resets past 3 clocks", resets(3, 15), Refused(4, 46)),
        case("resets of 4 clocks", resets(4, 15), Taken),
        case("resets past 4 clocks", resets(4, 16), Refused(4, 46)),
        case("the last bit of resets", resets(4, 128), Refused(4, 46)),
    ]
}

/// Bodies that stop early, and bytes left over.
fn ends() -> Vec<Case> {
    let is = |k: usize, body: &'static [u8]| a_bodies(|b| b[k] = body.to_vec());
    let mut list = vec![
        case("body 1: one byte of lowest", is(0, &[1, 0]), Refused(4, 24)),
        case("body 1: no highest", is(0, &[1, 0, 0]), Refused(4, 25)),
        case(
            "body 1: one byte of highest",
            is(0, &[1, 0, 0, 9]),
            Refused(4, 26),
        ),
        case(
            "body 1: count wrong, then its end",
            is(0, &[4]),
            Refused(4, 22),
        ),
        case(
            "body 1: lowest wrong, then its end",
            is(0, &[1, 0xe9, 3]),
            Refused(4, 23),
        ),
        case(
            "body 1: a byte of a wrong lowest",
            is(0, &[1, 0xff]),
            Refused(4, 24),
        ),
        case("body 1: no range", is(0, &[1]), Refused(4, 23)),
        case("body 2: no locations", is(1, &[1]), Refused(4, 28)),
        case("body 2: no location", is(1, &[1, 1]), Refused(4, 29)),
        case("body 2: no guard", is(1, &[1, 1, 1]), Refused(4, 30)),
        case(
            "body 2: a wrong, then its end",
            is(1, &[1, 1, 1, 2]),
            Refused(4, 30),
        ),
        case(
            "body 2: b wrong, then its end",
            is(1, &[1, 1, 1, 0, 0]),
            Refused(4, 31),
        ),
        case("body 4: no route", is(3, &[1]), Refused(4, 61)),
        case(
            "body 4: count wrong, then its end",
            is(3, &[33]),
            Refused(4, 60),
        ),
        case("body 4: no second byte", is(3, &[2, 0]), Refused(4, 62)),
        case("body 4: a byte left over", is(3, &[0, 0]), Refused(4, 61)),
    ];
    list.extend(early_and_late(&sheet_a(), [22, 27, 43, 60, 62]));
    list
}

/// Each body of a sheet empty, with a byte more, and without so many of its last bytes, given where the bodies
/// start and the last one ends.
pub(super) fn early_and_late(sheet: &Sheet, starts: [usize; 5]) -> Vec<Case> {
    let with = |k: usize, change: &dyn Fn(&mut Vec<u8>)| {
        let mut bodies = writer::bodies(sheet);
        change(&mut bodies[k]);
        writer::assemble(sheet.version, &bodies)
    };
    let mut list = Vec::new();
    for k in 0..4 {
        let (start, end) = (starts[k], starts[k + 1]);
        let empty = with(k, &|body| body.clear());
        let more = with(k, &|body| body.push(0));
        list.push(case("an empty body", empty, Refused(4, start)));
        list.push(case("a byte left over", more, Refused(4, end)));
        for n in 1..end - start {
            let less = with(k, &|body| body.truncate(body.len() - n));
            let place = end - n;
            list.push(case("a body that stops early", less, Refused(4, place)));
        }
    }
    list
}

/// Which of two wrong things comes first.
fn order() -> Vec<Case> {
    let over = |k: usize, wrong: usize| {
        a_bodies(|b| {
            b[k].push(0);
            b[wrong][0] = 99;
        })
    };
    let short = |k: usize, wrong: usize| {
        a_bodies(|b| {
            b[k].pop();
            b[wrong][0] = 99;
        })
    };
    let leaves = |k: usize| {
        a_bodies(|b| {
            b[k].push(0);
            b[k + 1].clear();
        })
    };
    let unlinked = |at: usize, x: u8| a_bytes(&[(44, 1), (at, x)]);
    vec![
        case("left over in 1, a field of 2", over(0, 1), Refused(4, 27)),
        case("left over in 2, a field of 3", over(1, 2), Refused(4, 43)),
        case("left over in 3, a field of 4", over(2, 3), Refused(4, 60)),
        case("left over in 4, a field of 4", over(3, 3), Refused(4, 60)),
        case("left over in 2, a field of 1", over(1, 0), Refused(4, 22)),
        case("1 stops early, a field of 2", short(0, 1), Refused(4, 26)),
        case("2 stops early, a field of 3", short(1, 2), Refused(4, 42)),
        case("3 stops early, a field of 1", short(2, 0), Refused(4, 22)),
        case("left over in 1, 2 empty", leaves(0), Refused(4, 27)),
        case("left over in 2, 3 empty", leaves(1), Refused(4, 43)),
        case("left over in 3, 4 empty", leaves(2), Refused(4, 60)),
        case("unlinked, and a range", unlinked(25, 64), Refused(4, 25)),
        case("unlinked, and a relation", unlinked(50, 2), Refused(4, 50)),
        case("unlinked, and the version", unlinked(0, 0), Refused(3, 0)),
        case("unlinked, and a length", unlinked(20, 9), Refused(3, 20)),
        case(
            "lowest and highest",
            a_bytes(&[(24, 9), (26, 9)]),
            Refused(4, 23),
        ),
        case(
            "highest and clocks",
            a_bytes(&[(26, 9), (27, 9)]),
            Refused(4, 25),
        ),
        case("a and b", a_bytes(&[(30, 9), (31, 9)]), Refused(4, 30)),
        case(
            "both in body 3, and in 2",
            a_bytes(&[(49, 9), (40, 9)]),
            Refused(4, 40),
        ),
    ]
}

/// Body 4's counts, and refusal 5.
fn routes() -> Vec<Case> {
    let circle = |route: &[u8]| {
        a_with(|s| {
            s.transitions = vec![
                transition(0, 1, 0, &[]),
                transition(1, 0, 1, &[]),
                transition(1, 1, 0, &[]),
            ];
            s.route = route.to_vec();
        })
    };
    let there_and_back = |n: usize| circle(&[0, 1].repeat(32)[..n]);
    let b = |route: &[u8]| {
        let mut sheet = sheet_b();
        sheet.route = route.to_vec();
        writer::file(&sheet)
    };
    let late = |last: u8| {
        let mut route = [0, 1].repeat(16);
        route[31] = last;
        circle(&route)
    };
    vec![
        case("an empty route", a_with(|s| s.route.clear()), Taken),
        case("a route of 32", there_and_back(32), Taken),
        case("a route of 33", there_and_back(33), Refused(4, 56)),
        case("a route of 255", a_bytes(&[(60, 255)]), Refused(4, 60)),
        case(
            "a route byte of 1 of 1",
            a_bytes(&[(61, 1)]),
            Refused(4, 61),
        ),
        case("a route byte of 255", a_bytes(&[(61, 255)]), Refused(4, 61)),
        case("the first not from 0", a_bytes(&[(44, 1)]), Refused(5, 61)),
        case("the first of three", circle(&[1, 0, 1]), Refused(5, 57)),
        case("the second of three", circle(&[0, 0, 1]), Refused(5, 58)),
        case("the third of three", circle(&[0, 1, 1]), Refused(5, 59)),
        case(
            "the first and the third",
            circle(&[2, 2, 0]),
            Refused(5, 57),
        ),
        case("a circle at 1", circle(&[0, 2, 2, 1, 0]), Taken),
        case("the last of 32", late(0), Refused(5, 88)),
        case("the last of 32 at 1", late(2), Taken),
        case(
            "past the transitions, the last of 32",
            late(3),
            Refused(4, 88),
        ),
        case(
            "past the transitions after an unlinked",
            circle(&[1, 3]),
            Refused(4, 58),
        ),
        case(
            "unlinked after past the transitions",
            circle(&[3, 1]),
            Refused(4, 57),
        ),
        case("sheet B, another route", b(&[2, 0, 1, 2, 0, 1]), Taken),
        case("sheet B, the fourth", b(&[2, 0, 1, 1, 0]), Refused(5, 125)),
    ]
}

#[cfg(test)]
mod tests {
    use super::*;
    use crate::sheet::{body, read};

    /// The reader gives each case the result that is written beside it.
    #[test]
    fn results_are_the_papers() {
        for case in cases() {
            let found = read(&case.file).err();
            assert_eq!(found, case.result.refusal(), "{}", case.name);
        }
    }

    /// A body is refused by 2 and 3 of its file first, then for its kind, and by nothing else.
    #[test]
    fn bodies_are_handed_out() {
        let refusal = |number, place| Err(Refusal { number, place });
        let a = writer::file(&sheet_a());
        assert_eq!(body(&a, 1), Ok(&a[22..27]));
        assert_eq!(body(&a, 4), Ok(&a[60..62]));
        assert_eq!(body(&a, 0), refusal(3, 0));
        assert_eq!(body(&a, 5), refusal(3, 0));
        assert_eq!(body(&a[..21], 5), refusal(2, 0));
        assert_eq!(body(&a[..61], 5), refusal(3, 20));
        let wrong = a_bytes(&[(22, 9)]);
        assert_eq!(body(&wrong, 1), Ok(&wrong[22..27]));
    }
}
