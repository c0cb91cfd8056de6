//! Runs tried out one by one, for tests with small sheets: paper 01, "Runs", and paper 02, request
//! (b), with the waits counted in parts of a minute.

use crate::sheet::{Guard, Sheet};
use crate::valuations::Valuation;

/// All the end states of a sheet's runs at that valuation whose waits are at most `longest` parts,
/// `parts` to a minute: the clocks, counted in parts, clock 0 first.
pub fn ends(sheet: &Sheet, v: Valuation, parts: i64, longest: i64) -> Vec<[i64; 5]> {
    let mut list = Vec::new();
    let search = Search {
        sheet,
        v,
        parts,
        longest,
    };
    search.visit(0, 0, [0; 5], &mut list);
    list
}

/// What all visits share.
struct Search<'a> {
    sheet: &'a Sheet,
    v: Valuation,
    parts: i64,
    longest: i64,
}

impl Search<'_> {
    /// Adds the end states of all the runs that come to that location after `made` moves: its
    /// invariants hold at the start or on arrival, and at the end of the stay.
    fn visit(&self, made: usize, location: usize, clocks: [i64; 5], list: &mut Vec<[i64; 5]>) {
        let invariants = &self.sheet.locations[location].invariants;
        if !self.hold(invariants, clocks) {
            return;
        }
        for wait in 0..=self.longest {
            let now = [0, 1, 2, 3, 4].map(|i| if i == 0 { 0 } else { clocks[i] + wait });
            if self.hold(invariants, now) {
                self.go_on(made, now, list);
            }
        }
    }

    /// Makes the next move, or ends there if there is none.
    fn go_on(&self, made: usize, mut now: [i64; 5], list: &mut Vec<[i64; 5]>) {
        let Some(&number) = self.sheet.route.get(made) else {
            list.push(now);
            return;
        };
        let transition = &self.sheet.transitions[usize::from(number)];
        if self.hold(&transition.guards, now) {
            for (i, clock) in now.iter_mut().enumerate().skip(1) {
                if transition.resets >> (i - 1) & 1 == 1 {
                    *clock = 0;
                }
            }
            self.visit(made + 1, usize::from(transition.to), now, list);
        }
    }

    /// Whether all those guards hold.
    fn hold(&self, guards: &[Guard], now: [i64; 5]) -> bool {
        guards.iter().all(|guard| {
            let mut minutes = i64::from(guard.constant);
            for (k, x) in self.v.into_iter().enumerate() {
                minutes += i64::from(guard.coefficients[k]) * x;
            }
            let difference = now[usize::from(guard.a)] - now[usize::from(guard.b)];
            if guard.strict {
                difference < self.parts * minutes
            } else {
                difference <= self.parts * minutes
            }
        })
    }
}
