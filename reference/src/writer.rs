//! A sheet as a file: the reader's opposite. Nothing is judged here, so that a sheet with wrong
//! fields can be written too. A version that is not 2 is laid out as 1.

use crate::sheet::{parameters_of, Guard, Sheet, CONTENTS};

/// The file of a sheet.
pub fn file(sheet: &Sheet) -> Vec<u8> {
    assemble(sheet.version, &bodies(sheet))
}

/// The four bodies of a sheet.
pub fn bodies(sheet: &Sheet) -> [Vec<u8>; 4] {
    [
        parameters(sheet),
        locations(sheet),
        transitions(sheet),
        route(sheet),
    ]
}

/// The file of that version that has those bodies, with the contents that fit them.
pub fn assemble(version: u8, bodies: &[Vec<u8>; 4]) -> Vec<u8> {
    let mut file = vec![version, 4];
    let mut offset = CONTENTS;
    for (kind, body) in (1..).zip(bodies) {
        file.push(kind);
        file.extend((offset as u16).to_le_bytes());
        file.extend((body.len() as u16).to_le_bytes());
        offset += body.len();
    }
    for body in bodies {
        file.extend(body);
    }
    file
}

/// Body 1.
fn parameters(sheet: &Sheet) -> Vec<u8> {
    let mut body = vec![sheet.parameters.len() as u8];
    for parameter in &sheet.parameters {
        body.extend(parameter.lowest.to_le_bytes());
        body.extend(parameter.highest.to_le_bytes());
    }
    body
}

/// Body 2.
fn locations(sheet: &Sheet) -> Vec<u8> {
    let mut body = vec![sheet.clocks, sheet.locations.len() as u8];
    for location in &sheet.locations {
        guards(&mut body, sheet.version, &location.invariants);
    }
    body
}

/// Body 3.
fn transitions(sheet: &Sheet) -> Vec<u8> {
    let mut body = vec![sheet.transitions.len() as u8];
    for transition in &sheet.transitions {
        body.extend([transition.from, transition.to, transition.resets]);
        guards(&mut body, sheet.version, &transition.guards);
    }
    body
}

/// Body 4.
fn route(sheet: &Sheet) -> Vec<u8> {
    let mut body = vec![sheet.route.len() as u8];
    body.extend(&sheet.route);
    body
}

/// Adds a count of guards and the guards to a body.
fn guards(body: &mut Vec<u8>, version: u8, list: &[Guard]) {
    body.push(list.len() as u8);
    for guard in list {
        body.extend([guard.a, guard.b, u8::from(guard.strict), 0]);
        body.extend(guard.constant.to_le_bytes());
        for coefficient in &guard.coefficients[..parameters_of(version)] {
            body.extend(coefficient.to_le_bytes());
        }
    }
}

#[cfg(test)]
mod tests {
    use crate::random::Random;
    use crate::samples::{random_sheet, Size};
    use crate::sheet::read;

    /// What is written is read back, whatever the sheet.
    #[test]
    fn written_is_read() {
        let mut random = Random::new(7);
        for size in [Size::SMALL, Size::MIDDLE, Size::LARGE] {
            for n in 0..2000 {
                let sheet = random_sheet(&mut random, [1, 2][n % 2], size);
                assert_eq!(read(&super::file(&sheet)), Ok(sheet));
            }
        }
    }
}
