//! The rows of paper 01, "Sheets to try", with their results, and tables and files that are refused.

use super::{case, file_case, zones, Case, Reply};
use crate::bound::Expr;
use crate::rows;
use crate::samples::{a_with, at_most, range, sheet_a};
use crate::valuations::Valuation;
use crate::windows::PLACES;
use crate::writer;
use Reply::{Counts, Refused};

/// All cases; sheet A is the first.
pub fn cases() -> Vec<Case> {
    let mut list = paper_rows();
    list.extend(ranges_and_routes());
    list.extend(tables());
    list.extend(refused_files());
    list
}

/// What sheet A must give.
fn zone_of_a() -> Reply {
    zones(&[([3, 0, 0, 0], &[[-3, 1, 0, 0, 0]])], 8, 3)
}

/// The only zone of a sheet without a parameter, or with nothing asked of one that starts at 0.
const WHOLE: (Valuation, &[Expr]) = ([0; 4], &[]);

/// The rows, in the paper's order.
fn paper_rows() -> Vec<Case> {
    let p_and_q = zones(
        &[
            ([1, 0, 0, 0], &[[-1, 1, -1, 0, 0]]),
            ([0, 0, 0, 0], &[[0, -1, 1, 0, 0]]),
        ],
        36,
        0,
    );
    let q_and_p = zones(
        &[
            ([0, 1, 0, 0], &[[-1, -1, 1, 0, 0]]),
            ([0, 0, 0, 0], &[[0, 1, -1, 0, 0]]),
        ],
        36,
        0,
    );
    vec![
        case("A", &sheet_a(), zone_of_a()),
        case(
            "A with <",
            &rows::a_strict(),
            zones(
                &[([4, 0, 0, 0], &[[-1, 1, 0, 0, 0], [-4, 1, 0, 0, 0]])],
                7,
                4,
            ),
        ),
        case("<= p, <= q", &rows::p_then_q(), p_and_q),
        case("<= q, <= p", &rows::q_then_p(), q_and_p),
        case("no limits", &rows::no_limits(), zones(&[WHOLE], 1, 0)),
        case("< p, p in 0..0", &rows::below_zero(), zones(&[], 0, 1)),
        case(
            "0 - 1 <= p",
            &rows::from_minus_p(),
            zones(
                &[
                    ([-5, 0, 0, 0], &[[-1, -1, 0, 0, 0]]),
                    ([0, 0, 0, 0], &[[0, 1, 0, 0, 0]]),
                ],
                11,
                0,
            ),
        ),
        case(
            "-2p - 5 >= 0 in -10..0",
            &rows::minus_two_p(),
            zones(&[([-10, 0, 0, 0], &[[-5, -2, 0, 0, 0]])], 8, 3),
        ),
        case(
            "2p - 5 >= 0 in 0..10",
            &rows::two_p(),
            zones(&[([3, 0, 0, 0], &[[-5, 2, 0, 0, 0]])], 8, 3),
        ),
        case(
            "standing <= 0, 0 - 1 <= 0",
            &rows::at_once(),
            zones(&[WHOLE], 1, 0),
        ),
        case("standing <= 0, 0 - 1 < 0", &rows::never(), zones(&[], 0, 1)),
        case(
            "two clocks",
            &rows::two_clocks(at_most(1, 0, 5, [0; 4])),
            zones(&[WHOLE], 1, 0),
        ),
    ]
}

/// The widest range, the longest route, and one past them.
fn ranges_and_routes() -> Vec<Case> {
    let wide = |highest| a_with(|s| s.parameters[0] = range(0, highest));
    vec![
        case(
            "range 0..63",
            &wide(63),
            zones(&[([3, 0, 0, 0], &[[-3, 1, 0, 0, 0]])], 61, 3),
        ),
        case("range 0..64", &wide(64), Refused(4, 25)),
        case("route of 32", &rows::a_around(32), zones(&[WHOLE], 11, 0)),
        case("route of 33", &rows::a_around(33), Refused(4, 48)),
        case(
            "three ranges of 64",
            &rows::least_of_three(),
            Counts(4, 262_144, 0),
        ),
    ]
}

/// Sheet A, sheets of the rows with other counts of zones, and a bad file, with tables of many sizes.
fn tables() -> Vec<Case> {
    let mut list = Vec::new();
    let a = writer::file(&sheet_a());
    for places in [0, 1, 31, 32, 33, 40] {
        let taken = places >= PLACES;
        let name = |what: &str| format!("{what}, a table of {places}");
        let result = |taken_result| if taken { taken_result } else { Refused(1, 0) };
        let of_a = result(zone_of_a());
        list.push(file_case(&name("A"), a.clone(), places, of_a));
        let short = result(Refused(2, 0));
        list.push(file_case(
            &name("21 bytes"),
            a[..21].to_vec(),
            places,
            short,
        ));
        let [pq, zero] = [rows::p_then_q(), rows::below_zero()].map(|s| writer::file(&s));
        let of_pq = result(Counts(2, 36, 0));
        list.push(file_case(&name("<= p, <= q"), pq, places, of_pq));
        let nothing = result(Counts(0, 0, 1));
        list.push(file_case(&name("< p, p in 0..0"), zero, places, nothing));
    }
    list
}

/// Files that are refused.
fn refused_files() -> Vec<Case> {
    let a = writer::file(&sheet_a());
    let empty = writer::assemble(1, &Default::default());
    let refused = |name, file, number, place| file_case(name, file, PLACES, Refused(number, place));
    vec![
        refused("no byte", vec![], 2, 0),
        refused("21 bytes", a[..21].to_vec(), 2, 0),
        refused("4,097 bytes", vec![1; 4097], 2, 0),
        refused("22 bytes of A", a[..22].to_vec(), 3, 5),
        refused("22 bytes, lengths 0", empty, 4, 22),
        refused("61 bytes of A", a[..61].to_vec(), 3, 20),
        case("a move from elsewhere", &rows::a_apart(), Refused(5, 62)),
    ]
}
