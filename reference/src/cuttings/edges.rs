//! Sheets built to end at a limit of refusals 7 and 8, or just past it, at a visit that is known, with
//! results written by hand.
//!
//! The bound k^2 - 2kp is a line that touches -p^2 at p = k, so that of several such lines, zero being the
//! line of k = 0, each is the least somewhere. As lower guards on a clock they leave a zone for each.
//!
//! No start is refused by 7 or 8: all clocks are 0 there, so that a guard holds in the whole of
//! what it leaves of a zone, which is one part with one more inequality at most, and there are at
//! most six guards.
//!
//! The numbers of entries, sums and tests have no limit at which a sheet is refused: they stay small by
//! themselves (`numbers`).

use super::{case, Case, Reply};
use crate::bound::Expr;
use crate::samples::{along, at_most, location, range};
use crate::sheet::{Guard, Parameter, Sheet, MOST_GUARDS};
use Reply::{Counts, Refused};

/// All cases.
pub fn cases() -> Vec<Case> {
    let mut list = zones();
    list.extend(inequalities());
    list.extend(both());
    list.extend(nothing());
    list
}

/// 0 - 1 at most k^2 - 2kp, for each k.
pub(super) fn lines(numbers: impl IntoIterator<Item = i16>) -> Vec<Guard> {
    let line = |k: i16| at_most(0, 1, k * k, [-2 * k, 0, 0, 0]);
    numbers.into_iter().map(line).collect()
}

/// 1, -1, 2, -2 and so on, that many: lines in this order part one zone each, the first or the last.
pub(super) fn both_sides(count: i16) -> impl Iterator<Item = i16> {
    (2..count + 2).map(|n| if n % 2 == 0 { n / 2 } else { -(n / 2) })
}

/// Those guards at the moves and stays of a route in turn, six at each, in locations of their own.
/// The first stay has none, so that nothing is asked of the start.
fn in_turn(parameters: &[Parameter], guards: &[Guard]) -> Sheet {
    let places: Vec<Vec<Guard>> = guards.chunks(MOST_GUARDS).map(<[Guard]>::to_vec).collect();
    let moves: Vec<(u8, Vec<Guard>)> = places.iter().step_by(2).map(|c| (0, c.clone())).collect();
    let mut stays = vec![vec![]];
    stays.extend(places.iter().skip(1).step_by(2).cloned());
    stays.resize(moves.len() + 1, vec![]);
    let path: Vec<u8> = (0..stays.len() as u8).collect();
    along(parameters, 1, &stays, &path, &moves)
}

/// Guards at moves alone, that many at each, with those invariants at each stay.
pub(super) fn at_moves(
    parameters: &[Parameter],
    stay: &[Guard],
    guards: &[Guard],
    each: usize,
) -> Sheet {
    let moves: Vec<(u8, Vec<Guard>)> = guards.chunks(each).map(|c| (0, c.to_vec())).collect();
    let path = vec![0; moves.len() + 1];
    along(parameters, 1, &[stay.to_vec()], &path, &moves)
}

/// The sheet with its last move to a location of its own, which has those invariants.
fn arriving(mut sheet: Sheet, invariants: &[Guard]) -> Sheet {
    let last = sheet.transitions.last_mut().expect("there is a move");
    last.to = sheet.locations.len() as u8;
    sheet.locations.push(location(invariants));
    sheet
}

/// 32 zones, and a 33rd at one visit or another: at a move the visit before it counts, on the
/// arrival after it and at the end of the stay the one that follows.
fn zones() -> Vec<Case> {
    let p = [range(-20, 20)];
    let taken = lines(both_sides(31));
    let one_more = lines(both_sides(32));
    let last_arrival = {
        // a move without a guard after 31 with one each
        let mut sheet = at_moves(&p, &[], &one_more, 1);
        sheet.transitions[31].guards.clear();
        arriving(sheet, &one_more[31..])
    };
    let mut list = vec![
        case("32 zones", &in_turn(&p, &taken), Counts(32, 41, 0)),
        case("a 33rd on arrival", &in_turn(&p, &one_more), Refused(7, 3)),
        case(
            "32 zones, 31 moves",
            &at_moves(&p, &[], &taken, 1),
            Counts(32, 41, 0),
        ),
        case(
            "a 33rd at the last move",
            &at_moves(&p, &[], &one_more, 1),
            Refused(7, 31),
        ),
        case("a 33rd on the last arrival", &last_arrival, Refused(7, 32)),
        case(
            "32 zones at the first move",
            &first_move(&[]),
            Counts(32, 6 * 6 * 11, 0),
        ),
        case(
            "a 33rd at the first move",
            &first_move(&[-2]),
            Refused(7, 0),
        ),
    ];
    for (at, words, visit) in [
        (Where::Move, "at a move", 1),
        (Where::Arrival, "on arrival", 2),
        (Where::Stay, "at the end of a stay", 2),
    ] {
        let name = |count| format!("{count} zones parted {words}");
        list.extend([
            case(&name(16), &parted(16, at), Counts(32, 41 * 3, 0)),
            case(&name(17), &parted(17, at), Refused(7, visit)),
        ]);
    }
    list
}

/// Four zones by upper lines in p at the end of the first stay, and at the first move four by lines
/// in q, all of them parted by r. Then come the lines in q of those numbers.
fn first_move(more: &[i16]) -> Sheet {
    let up = |k: i16| at_most(1, 0, 500 + k * k, [-2 * k, 0, 0, 0]);
    let down = |&k: &i16| at_most(0, 1, k * k, [0, -2 * k, 0, 0]);
    let mut guards: Vec<Guard> = [1, -1, 2].iter().map(down).collect();
    guards.push(at_most(0, 1, 0, [0, 0, 1, 0]));
    guards.extend(more.iter().map(down));
    along(
        &[range(-1, 4), range(-2, 3), range(-9, 1)],
        1,
        &[(0..4).map(up).collect(), vec![]],
        &[0, 1],
        &[(0, guards)],
    )
}

/// Where a guard comes.
#[derive(Clone, Copy)]
enum Where {
    Move,
    Arrival,
    Stay,
}

/// That many zones, more than 12, by lines on a first clock at two moves and the stay between them;
/// then an upper guard on a second clock, which parts them all by q against another one.
fn parted(count: i16, at: Where) -> Sheet {
    let guards = lines(both_sides(count - 1));
    let (first, others) = guards.split_at(MOST_GUARDS);
    let (between, rest) = others.split_at(MOST_GUARDS);
    let [other, by_q] = [0, 1].map(|q| at_most(2, 0, 500, [0, q, 0, 0]));
    // a wait would take the other guard away, and a reset leaves nothing to part on arrival
    let (resets, with_move, there) = match at {
        Where::Move => (0, vec![other, by_q], vec![]),
        Where::Arrival => (0, vec![other], vec![by_q]),
        Where::Stay => (0b10, vec![], vec![other, by_q]),
    };
    along(
        &[range(-20, 20), range(-1, 1)],
        2,
        &[vec![], between.to_vec(), there],
        &[0, 1, 2],
        &[(0, first.to_vec()), (resets, [rest, &with_move].concat())],
    )
}

/// The inequalities p - k >= 0.
fn at_least(numbers: impl Iterator<Item = i64>) -> Vec<Expr> {
    numbers.map(|k| [-k, 1, 0, 0, 0]).collect()
}

/// 0 - 1 at most -k, for each k.
pub(super) fn rising(numbers: impl Iterator<Item = i16>) -> Vec<Guard> {
    numbers.map(|k| at_most(0, 1, -k, [0; 4])).collect()
}

/// 24 inequalities, and a 25th, of a zone that stays and of one that would be cut: at a move, on
/// arrival, and at the end of a stay.
fn inequalities() -> Vec<Case> {
    let wide = [range(0, 63)];
    let up = [at_most(1, 0, 0, [1, 0, 0, 0])];
    let cut = |last: i16| at_moves(&wide, &up, &rising(1..=last), 6);
    let again = at_moves(&wide, &up, &rising((1..=24).chain([24, 3, 24])), 6);
    let one_each = at_moves(&wide, &up, &rising(1..=25), 1);
    let shaved = || super::zones(&[([24, 0, 0, 0], &at_least(1..=24))], 40, 24);
    let arriving_late = |last: i16| arriving(cut(last - 1), &rising(last..=last));
    let p = [range(0, 30)];
    let at_lines = |last: i16| at_moves(&p, &[], &lines(1..=last), 6);
    let arriving_low = |last: i16| arriving(at_lines(last - 1), &lines(last..=last));
    // a clock that the last move resets, at most 500 and at most 530 - p: no test on arrival
    let parting = [
        at_most(2, 0, 500, [0; 4]),
        at_most(2, 0, 530, [-1, 0, 0, 0]),
    ];
    let staying = |last: i16| {
        let mut sheet = arriving(cut(last), &parting);
        sheet.clocks = 2;
        sheet.transitions[3].resets = 0b10;
        sheet
    };
    vec![
        case("24 inequalities, one zone", &cut(24), shaved()),
        case("settled after the 24th", &again, shaved()),
        case("a 25th, to be cut", &cut(25), Refused(8, 4)),
        case("a 25th at the last of 25 moves", &one_each, Refused(8, 24)),
        case(
            "24 inequalities, 25 zones",
            &in_turn(&p, &lines(1..=24)),
            Counts(25, 31, 0),
        ),
        case(
            "a 25th, to stay",
            &in_turn(&p, &lines(1..=25)),
            Refused(8, 2),
        ),
        case("a 24th on arrival, one zone", &arriving_late(24), shaved()),
        case(
            "a 25th on arrival, to be cut",
            &arriving_late(25),
            Refused(8, 4),
        ),
        case(
            "a 24th on arrival, 25 zones",
            &arriving_low(24),
            Counts(25, 31, 0),
        ),
        case(
            "a 25th on arrival, to stay",
            &arriving_low(25),
            Refused(8, 4),
        ),
        case(
            "a 24th at the end of a stay",
            &staying(23),
            Counts(2, 41, 23),
        ),
        case("a 25th at the end of a stay", &staying(24), Refused(8, 4)),
    ]
}

/// A guard, at a move and on arrival, that meets both a zone with 24 inequalities and 33 zones: the
/// first met is the refusal.
fn both() -> Vec<Case> {
    let mut list = Vec::new();
    for (at, words) in [(Where::Move, "at a move"), (Where::Arrival, "on arrival")] {
        for (first, order, number) in [(false, "before", 7), (true, "after", 8)] {
            let name = format!("17 zones {order} one with 24 inequalities, {words}");
            list.push(case(&name, &deep_zone(first, at), Refused(number, 7)));
        }
    }
    list
}

/// Two zones by q, -1 and then 0: one of them is parted in 17 by lines in p, and the other one gets 23
/// more inequalities in r. Then comes a guard that parts every zone by r, after seven moves.
fn deep_zone(first: bool, at: Where) -> Sheet {
    // what keeps the lines from q = 0 and the others from q = -1, or the other way round; at q = -1 the
    // lower bound is -1 already, and the lines start from there
    let (line, line_q, deep, deep_q) = if first {
        (0, -700, 500, 1000)
    } else {
        (699, 700, -500, -1000)
    };
    let mut guards = vec![at_most(0, 1, 0, [0, 1, 0, 0])];
    for k in both_sides(16) {
        guards.push(at_most(0, 1, k * k + line, [-2 * k, line_q, 0, 0]));
    }
    for k in 1..=23 {
        guards.push(at_most(0, 1, deep - k, [0, deep_q, 0, 0]));
    }
    // a full last move, so that the next guard is not at this one
    while guards.len() % MOST_GUARDS != 0 {
        guards.push(at_most(0, 1, 0, [0; 4]));
    }
    let parting = at_most(1, 0, 528, [0; 4]);
    let up = [at_most(1, 0, 500, [0, 0, 1, 0])];
    let parameters = [range(-20, 20), range(-1, 0), range(0, 30)];
    if matches!(at, Where::Move) {
        guards.push(parting);
    }
    let sheet = at_moves(&parameters, &up, &guards, MOST_GUARDS);
    match at {
        Where::Move => sheet,
        Where::Arrival | Where::Stay => arriving(sheet, &[parting]),
    }
}

/// Sheets of which nothing is left, at the start, at the first guard of a move, and on the last
/// arrival.
fn nothing() -> Vec<Case> {
    let whole = in_turn(&[range(-20, 20)], &lines(both_sides(31)));
    let never = at_most(1, 0, -1, [0; 4]);
    let [mut start, mut early, mut late] = [whole.clone(), whole.clone(), whole];
    start.locations[0].invariants = vec![never];
    early.transitions[0].guards[0] = never;
    let last = late.locations.len() - 1;
    late.locations[last].invariants = vec![never];
    vec![
        case("nothing at the start", &start, Counts(0, 0, 41)),
        case("nothing from the first guard on", &early, Counts(0, 0, 41)),
        case("nothing on the last arrival", &late, Counts(0, 0, 41)),
    ]
}

#[cfg(test)]
mod tests {
    use super::*;
    use crate::windows::{cut, Limits};

    /// Each of the sheets with both grounds is refused on the other one where the first is lifted.
    #[test]
    fn both_grounds_are_there() {
        for at in [Where::Move, Where::Arrival] {
            for (first, number) in [(false, 8), (true, 7)] {
                let mut limits = Limits::PAPER;
                if first {
                    limits.inequalities = usize::MAX;
                } else {
                    limits.zones = usize::MAX;
                }
                let refusal = cut(&deep_zone(first, at), limits).unwrap_err();
                assert_eq!((refusal.number, refusal.place), (number, 7));
            }
        }
    }
}
