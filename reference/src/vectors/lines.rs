//! The line that stands for a file's results: a refusal, or counts and a digest of the whole sheet;
//! then a digest of what `body` hands out.
//!
//! A digest goes over a list of numbers, to each of which 2147483648 is added.
//!
//! The numbers of a sheet are its version and the fields of its bodies in the file's order, with every
//! place that a sheet has: 4 parameters, 16 locations and 32 transitions of 6 guards each, with 4
//! coefficients, and a route of 32. A place past a count has zeros in all its fields. The numbers of
//! the bodies are, for each kind from 0 to 5, the refusal's number and place (0 and 0 for none), the
//! length of the part, and its bytes.

use crate::digest::digest;
use crate::sheet::{
    body, read, Guard, Refusal, Sheet, MOST_GUARDS, MOST_LOCATIONS, MOST_PARAMETERS, MOST_ROUTE,
    MOST_TRANSITIONS,
};

/// The line of a file, with its line end: the result of reading it, and `bodies D`.
pub fn line(file: &[u8]) -> String {
    format!("{} bodies {}\n", result(file), raised(&parts(file)))
}

/// The result of reading a file: `refused R place P`, or `read P C L T R digest D` with the counts
/// of parameters, clocks, locations, transitions and route entries.
fn result(file: &[u8]) -> String {
    match read(file) {
        Err(Refusal { number, place }) => format!("refused {number} place {place}"),
        Ok(sheet) => format!(
            "read {} {} {} {} {} digest {}",
            sheet.parameters.len(),
            sheet.clocks,
            sheet.locations.len(),
            sheet.transitions.len(),
            sheet.route.len(),
            raised(&fields(&sheet))
        ),
    }
}

/// The digest of a list of numbers, with 2147483648 added to each.
fn raised(list: &[i16]) -> u64 {
    let raised = |&x: &i16| (i64::from(x) + 2_147_483_648) as u64;
    digest(list.iter().map(raised))
}

/// What `body` hands out for each kind from 0 to 5: refusal, length and bytes.
fn parts(file: &[u8]) -> Vec<i16> {
    let mut list = Vec::new();
    for kind in 0..=5 {
        match body(file, kind) {
            Err(Refusal { number, place }) => list.extend([i16::from(number), place as i16, 0]),
            Ok(part) => {
                list.extend([0, 0, part.len() as i16]);
                list.extend(part.iter().map(|&x| i16::from(x)));
            }
        }
    }
    list
}

/// The version and every field of the bodies in the file's order, with zeros for the places past a count.
fn fields(sheet: &Sheet) -> Vec<i16> {
    let mut list = vec![i16::from(sheet.version), sheet.parameters.len() as i16];
    for k in 0..MOST_PARAMETERS {
        let ends = sheet.parameters.get(k).map(|p| [p.lowest, p.highest]);
        list.extend(ends.unwrap_or_default());
    }
    list.push(i16::from(sheet.clocks));
    list.push(sheet.locations.len() as i16);
    for k in 0..MOST_LOCATIONS {
        let invariants = sheet.locations.get(k).map(|l| &l.invariants[..]);
        guards(&mut list, invariants.unwrap_or_default());
    }
    list.push(sheet.transitions.len() as i16);
    for k in 0..MOST_TRANSITIONS {
        let transition = sheet.transitions.get(k);
        let ends = transition.map(|t| [t.from, t.to, t.resets].map(i16::from));
        list.extend(ends.unwrap_or_default());
        guards(&mut list, transition.map_or(&[], |t| &t.guards));
    }
    list.push(sheet.route.len() as i16);
    for k in 0..MOST_ROUTE {
        list.push(sheet.route.get(k).map_or(0, |&x| i16::from(x)));
    }
    list
}

/// Adds the fields of a list of guards.
fn guards(list: &mut Vec<i16>, guards: &[Guard]) {
    list.push(guards.len() as i16);
    for k in 0..MOST_GUARDS {
        match guards.get(k) {
            None => list.extend([0; 4 + MOST_PARAMETERS]),
            Some(guard) => {
                list.extend([guard.a, guard.b, u8::from(guard.strict)].map(i16::from));
                list.push(guard.constant);
                list.extend(guard.coefficients);
            }
        }
    }
}
