// Families of sheets with 262,144 valuations, most of them in three ranges of 64 values, that are cut in fewer than ten
// pieces.
use reference::planned::{crossed, Shape};
use reference::random::Random;
use reference::samples::{along, at_most, range};
use reference::sheet::{Guard, Parameter, Sheet, MOST_LOCATIONS, MOST_ROUTE};
use reference::windows::{cut, Limits};
use reference::writer::file;

pub const LENGTHS: [usize; 6] = [1, 2, 4, 8, 16, 32];

pub struct Family {
    pub name: &'static str,
    // The moves of the route.
    pub moves: usize,
    // Whether it is one of a row of families that differ in the length of the route alone.
    pub growing: bool,
    pub sheets: Vec<Sheet>,
}

impl Family {
    pub fn files(&self) -> Vec<Vec<u8>> {
        self.sheets.iter().map(file).collect()
    }
}

fn cube() -> [Parameter; 3] {
    [range(0, 63); 3]
}

// clock - 0 at most that expression.
fn upper(clock: usize, constant: i16, coefficients: [i16; 4]) -> Guard {
    at_most(clock as u8, 0, constant, coefficients)
}

// clock at least that number.
fn lower(clock: usize, constant: i16) -> Guard {
    at_most(0, clock as u8, -constant, [0; 4])
}

// The least of three parameters: one stay, four pieces.
fn least() -> Sheet {
    let stay = vec![upper(1, 0, [1, 0, 0, 0]), upper(1, 0, [0, 1, 0, 0]), upper(1, 0, [0, 0, 1, 0])];
    along(&cube(), 1, &[stay], &[0], &[])
}

// The least of four parameters: one stay, eight pieces.
fn least_of_four() -> Sheet {
    let parameters = [range(0, 15), range(0, 15), range(0, 31), range(0, 31)];
    let up = [[1, 0, 0, 0], [0, 1, 0, 0], [0, 0, 1, 0], [0, 0, 0, 1]].map(|e| upper(1, 0, e));
    along(&parameters, 1, &[up.to_vec()], &[0], &[])
}

// A stay of at most p + q and a move at r or later, then one more stay of at most 2q: some valuations are cut.
fn two_stays() -> Sheet {
    let late = vec![at_most(0, 1, 0, [0, 0, -1, 0])];
    let stays = [vec![upper(1, 0, [1, 1, 0, 0])], vec![upper(2, 0, [0, 2, 0, 0]), upper(1, 90, [1, 0, 0, 0])]];
    along(&cube(), 2, &stays, &[0, 1], &[(0b10, late)])
}

// Six limits everywhere, which all rest on p + q + r or on nothing, so that one is always the tighter one: all tests
// on the way are settled. With `parted` the first stay is at most the least of three parameters, four pieces, and clock
// 1 is never reset; else every clock is reset at every move.
fn full(parted: bool, moves: usize) -> Sheet {
    let mut stays = Vec::new();
    for _ in 0..MOST_LOCATIONS {
        stays.push((0..6).map(|k| upper(1 + k % 4, 900 - 10 * k as i16, [1, 1, 1, 0])).collect::<Vec<Guard>>());
    }
    if parted {
        stays[0] = vec![upper(1, 300, [1, 0, 0, 0]), upper(1, 300, [0, 1, 0, 0]), upper(1, 300, [0, 0, 1, 0])];
        stays[0].extend((1..4).map(|k| upper(1 + k, 900, [1, 1, 1, 0])));
    }
    let mut steps = Vec::new();
    for number in 0..moves {
        let mut guards = Vec::new();
        for k in 0..3 {
            guards.push(upper(1 + k % 4, 800 - 10 * k as i16, [1, 1, 1, 0]));
            let since = if parted { 3 * number + k + 1 } else { k + 1 };
            guards.push(lower(1, 2 * since as i16));
        }
        let resets = if parted { [0b0010, 0b0100, 0b1000, 0][number % 4] } else { 0b1111 };
        steps.push((resets, guards));
    }
    let path: Vec<u8> = (0..=moves).map(|k| (k % MOST_LOCATIONS) as u8).collect();
    along(&cube(), 4, &stays, &path, &steps)
}

// Each lower limit, six at a move and one on its arrival, cuts a little off: one piece with 21 inequalities.
fn shaved() -> Sheet {
    let mut stays = vec![vec![upper(1, 0, [1, 1, 1, 0])]];
    let mut steps = Vec::new();
    for number in 0..3 {
        let guards: Vec<Guard> = (1..=6).map(|k| lower(1, 7 * number + k)).collect();
        steps.push((0, guards));
        stays.push(vec![upper(1, 0, [1, 1, 1, 0]), lower(1, 7 * number + 7)]);
    }
    along(&cube(), 1, &stays, &[0, 1, 2, 3], &steps)
}

// The sheet without limits.
fn unlimited() -> Sheet {
    let mut sheet = full(false, MOST_ROUTE);
    sheet.guards_mut().for_each(Vec::clear);
    sheet
}

// Sheets around a run in the middle of the ranges, of the reference's own making, with that many moves and few
// limits. Those with two to nine pieces are taken.
fn around_a_run(random: &mut Random, moves: usize, count: usize) -> Vec<Sheet> {
    let shape = Shape { version: 1, parameters: 3, width: 63, clocks: 3, locations: 3, transitions: 6, moves, guards: 2 };
    let mut list = Vec::new();
    while list.len() < count {
        let mut sheet = crossed(random, shape).sheet;
        sheet.parameters.iter_mut().for_each(|p| p.highest = p.lowest + 63);
        if cut(&sheet, Limits::PAPER).is_ok_and(|found| (2..10).contains(&found.zones.len())) {
            list.push(sheet);
        }
    }
    list
}

// All families, with n sheets each where they are random.
pub fn all(n: usize) -> Vec<Family> {
    let random = &mut Random::new(2026);
    let mut all = Vec::new();
    for (name, parted) in [("6 limits, one piece, resets", false), ("6 limits, four pieces", true)] {
        for moves in LENGTHS {
            all.push(Family { name, moves, growing: true, sheets: vec![full(parted, moves)] });
        }
    }
    let mut push = |name, moves, sheets| all.push(Family { name, moves, growing: false, sheets });
    push("the least of three", 0, vec![least()]);
    push("the least of four", 0, vec![least_of_four()]);
    push("two stays", 1, vec![two_stays()]);
    push("21 inequalities, one piece", 3, vec![shaved()]);
    push("no limits", 32, vec![unlimited()]);
    for moves in [0, 1, 2, 4] {
        push("around a run", moves, around_a_run(random, moves, n));
    }
    all
}
