// Random sheets around a run with ranges as wide as they go, sorted by the moves of their routes and by the pieces that
// Windows cuts them in.
use crate::windows::{range, windows};
use reference::planned::{crossed, planned, Shape};
use reference::random::Random;
use reference::sheet::Sheet;
use reference::writer::file;

// A sheet, its file, and what Windows answers: the number of pieces, or minus the refusal's number.
#[derive(Clone)]
pub struct Drawn {
    pub sheet: Sheet,
    pub file: Vec<u8>,
    pub pieces: i64,
}

pub struct Family {
    pub name: String,
    pub sheets: Vec<Drawn>,
}

impl Family {
    // The least and the most moves of its sheets.
    pub fn moves(&self) -> String {
        range(&self.sheets.iter().map(|drawn| drawn.sheet.route.len() as i64).collect::<Vec<i64>>())
    }
}

// The least and the most moves of the routes in a family.
const MOVES: [(i64, i64); 5] = [(0, 0), (1, 2), (3, 8), (9, 16), (17, 32)];

// The least and the most pieces of the four parts of a family.
const PIECES: [(i64, i64); 4] = [(2, 4), (5, 8), (9, 16), (17, 32)];

// The widths of the ranges of up to three parameters, and of four, which may have no more than 262,144 valuations.
const WIDTHS: [i16; 4] = [64, 64, 64, 1];
const FOUR_WIDTHS: [i16; 4] = [16, 16, 32, 32];

// A sheet around a run with so many parameters and moves, and up to so many limits at each place.
fn draw(random: &mut Random, parameters: usize, moves: usize, guards: usize) -> Drawn {
    let locations = 1 + random.below(6);
    let shape = Shape {
        version: if parameters > 3 { 2 } else { 1 },
        parameters,
        width: 63,
        clocks: 1 + random.below(4) as u8,
        locations,
        transitions: locations + random.below(6),
        moves,
        guards,
    };
    let plan = if random.once_in(2) { planned(random, shape) } else { crossed(random, shape) };
    let mut sheet = plan.sheet;
    let widths = if parameters > 3 { FOUR_WIDTHS } else { WIDTHS };
    for (p, width) in sheet.parameters.iter_mut().zip(widths) {
        p.lowest = p.lowest.min(1001 - width);
        p.highest = p.lowest + width - 1;
    }
    answered(sheet)
}

// A sheet with Windows' answer.
pub fn answered(sheet: Sheet) -> Drawn {
    let file = file(&sheet);
    let pieces = windows(&file);
    Drawn { sheet, file, pieces }
}

// Of some draws the first n with pieces in each of the four parts.
fn some(random: &mut Random, parameters: usize, moves: (i64, i64), n: usize) -> Vec<Drawn> {
    let mut parts: [Vec<Drawn>; 4] = Default::default();
    for _ in 0..60 * n {
        let moves = random.within(moves.0, moves.1) as usize;
        let guards = if moves == 0 { 6 } else { 1 + random.below(3) };
        let drawn = draw(random, parameters, moves, guards);
        for (part, (low, high)) in parts.iter_mut().zip(PIECES) {
            if part.len() < n && (low..=high).contains(&drawn.pieces) {
                part.push(drawn.clone());
            }
        }
        if parts.iter().all(|part| part.len() == n) {
            break;
        }
    }
    parts.concat()
}

// The families of one to four parameters and of each length of the route, with up to 4 n sheets each.
pub fn all(n: usize) -> Vec<Family> {
    let random = &mut Random::new(2027);
    let mut families = Vec::new();
    for parameters in 1..=4 {
        for moves in MOVES {
            let name = format!("around a run, {parameters} parameter{}", if parameters == 1 { "" } else { "s" });
            families.push(Family { name, sheets: some(random, parameters, moves, n) });
        }
    }
    families
}

// So many sheets that are refused by 7, or by 8: three parameters, long routes and many limits.
pub fn refused(number: i64, n: usize) -> Vec<Drawn> {
    let random = &mut Random::new(2028);
    let mut list = Vec::new();
    while list.len() < n {
        let moves = random.within(4, 32) as usize;
        let drawn = draw(random, 3, moves, 6);
        if drawn.pieces == -number {
            list.push(drawn);
        }
    }
    list
}
