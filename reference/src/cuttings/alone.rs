//! Guards put to the zones that Windows lists, each by itself: for each zone in order each of the invariants
//! of location 0 and then of the guards of transition 0, if there is one, at visit 0.

use crate::digest::digest;
use crate::sheet::{Guard, Refusal, Sheet};
use crate::windows::{cut_one, Counted, Limits, Zone, PLACES};

/// What a guard leaves of a zone.
pub type Outcome = Result<Vec<Counted>, Refusal>;

/// The guards that are put to each zone.
pub(super) fn guards(sheet: &Sheet) -> impl Iterator<Item = &Guard> {
    let transition = sheet.transitions.first();
    let guards = transition.map_or(&[][..], |transition| &transition.guards);
    sheet.locations[0].invariants.iter().chain(guards)
}

/// What each guard leaves of each zone, with that zone.
pub(super) fn outcomes<'a>(
    sheet: &'a Sheet,
    zones: &'a [Zone],
) -> impl Iterator<Item = (&'a Zone, Outcome)> {
    let put = move |zone| {
        guards(sheet).map(move |guard| (zone, cut_one(sheet, zone, guard, 0, Limits::PAPER)))
    };
    zones.iter().flat_map(put)
}

/// The digest of the counts of tests. The numbers are, for each zone and guard: the refusal's number, or 0
/// where there is none; how many zones are listed; and 32 counts of tests, zeros past those zones. Without a
/// zone or a guard it is 0.
pub(super) fn digest_of(sheet: &Sheet, zones: &[Zone]) -> u64 {
    digest(outcomes(sheet, zones).flat_map(|(_, outcome)| numbers(&outcome)))
}

/// The 34 numbers of what a guard leaves of a zone.
fn numbers(outcome: &Outcome) -> Vec<u64> {
    let (refusal, list) = match outcome {
        Ok(list) => (0, &list[..]),
        Err(refusal) => (u64::from(refusal.number), &[][..]),
    };
    let mut numbers = vec![refusal, list.len() as u64];
    numbers.extend(list.iter().map(|counted| counted.tests as u64));
    numbers.resize(2 + PLACES, 0);
    numbers
}
