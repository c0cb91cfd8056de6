//! The zones of a sheet held to Sweep at single valuations.

use crate::random::Random;
use crate::sheet::Sheet;
use crate::sweep::{walk, SIDE};
use crate::valuations::{all, some, Valuation};
use crate::windows::{Windows, Zone};

/// Up to so many valuations of a sheet are all tried.
pub const MOST_TRIED: usize = 5_000;
/// How many are tried of a sheet that has more.
const TRIED: usize = 1_000;

/// Nothing if the zones agree with Sweep at all valuations, or at some where there are many: at most one
/// zone holds a valuation, one does exactly if there is a run, and its matrix is then Sweep's. The counts
/// agree too, and each zone's first valuation is the least that it holds. Otherwise what does not agree.
pub fn held(random: &mut Random, sheet: &Sheet, found: &Windows) -> Result<(), String> {
    let valuations = all(&sheet.parameters);
    for zone in &found.zones {
        let least = valuations.iter().filter(|&&v| zone.holds(v)).min();
        if least != Some(&zone.first) {
            return Err(format!("{least:?} is the least, {:?} first", zone.first));
        }
    }
    if found.kept + found.cut != valuations.len() {
        return Err(format!("{} valuations, {found:?}", valuations.len()));
    }
    if valuations.len() > MOST_TRIED {
        for v in some(random, &sheet.parameters, TRIED) {
            agrees(sheet, found, v)?;
        }
        return Ok(());
    }
    let mut runs = 0;
    for v in valuations {
        runs += usize::from(agrees(sheet, found, v)?);
    }
    if runs == found.kept {
        Ok(())
    } else {
        Err(format!("{runs} valuations have a run, {} kept", found.kept))
    }
}

/// Whether there is a run at that valuation, if the zones and Sweep agree on it.
fn agrees(sheet: &Sheet, found: &Windows, v: Valuation) -> Result<bool, String> {
    let zones: Vec<&Zone> = found.zones.iter().filter(|zone| zone.holds(v)).collect();
    match (&zones[..], walk(sheet, v)) {
        ([], None) => Ok(false),
        ([zone], Some(matrix)) => {
            for (i, j) in (0..SIDE * SIDE).map(|k| (k / SIDE, k % SIDE)) {
                let bound = zone.bounds[i][j].at(v);
                if bound != matrix[i][j] {
                    let right = matrix[i][j];
                    return Err(format!("({i}, {j}) at {v:?}: {right:?} and {bound:?}"));
                }
            }
            Ok(true)
        }
        (zones, matrix) => Err(format!(
            "at {v:?} {} zones, a run: {}",
            zones.len(),
            matrix.is_some()
        )),
    }
}
