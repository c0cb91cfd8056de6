//! The text that the program prints of a sheet (paper 01, "Sheets to try").

use crate::bound::Bound;
use crate::sheet::{read, Refusal};
use crate::windows::{windows, Windows, Zone, PLACES};

/// What the program prints of a file, with a line end at each line.
pub fn listing(file: &[u8]) -> String {
    match read(file).and_then(|sheet| Ok((sheet, windows(file, PLACES)?))) {
        Err(Refusal { number, place }) => format!("refused {number} place {place}\n"),
        Ok((sheet, found)) => listed(&found, usize::from(sheet.clocks)),
    }
}

/// The counts, and then the zones.
fn listed(found: &Windows, clocks: usize) -> String {
    let Windows { zones, kept, cut } = found;
    let mut text = format!("pieces {} kept {kept} cut {cut}\n", zones.len());
    for (number, zone) in zones.iter().enumerate() {
        text += &format!("piece {number}\n");
        text += &listed_zone(zone, clocks);
    }
    text
}

/// The first valuation of a zone, its inequalities, and the bounds of clock 0 and the sheet's clocks.
fn listed_zone(zone: &Zone, clocks: usize) -> String {
    let mut text = format!("first {}\n", numbers(zone.first));
    for &e in &zone.inequalities {
        text += &format!("ineq {}\n", numbers(e));
    }
    for (i, row) in zone.bounds[..=clocks].iter().enumerate() {
        for (j, &bound) in row[..=clocks].iter().enumerate() {
            text += &format!("bound {i} {j} {}\n", bound_words(bound));
        }
    }
    text
}

/// A bound as the program prints it.
fn bound_words(bound: Bound) -> String {
    match bound {
        Bound::None => "none".to_string(),
        Bound::At { expr, strict } => {
            let relation = if strict { "lt" } else { "le" };
            format!("{relation} {}", numbers(expr))
        }
    }
}

/// Numbers with a space between two: a valuation, or the constant and the coefficients.
fn numbers<const N: usize>(list: [i64; N]) -> String {
    list.map(|x| x.to_string()).join(" ")
}

#[cfg(test)]
mod tests {
    use super::*;
    use crate::rows;
    use crate::samples::{at_most, of_widths, range, sheet_a, sheet_c};
    use crate::sheet::Sheet;
    use crate::writer;

    /// Sheet A is listed as in the paper.
    #[test]
    fn sheet_a_is_listed() {
        let text = "\
pieces 1 kept 8 cut 3
piece 0
first 3 0 0 0
ineq -3 1 0 0 0
bound 0 0 le 0 0 0 0 0
bound 0 1 le -3 0 0 0 0
bound 1 0 none
bound 1 1 le 0 0 0 0 0
";
        assert_eq!(listing(&writer::file(&sheet_a())), text);
    }

    /// What is listed of a sheet's zones as their first valuations: the line after each `piece`.
    fn firsts(sheet: &Sheet) -> Vec<String> {
        let text = listing(&writer::file(sheet));
        let lines: Vec<&str> = text.lines().collect();
        let of_zones = lines.windows(2).filter(|two| two[0].starts_with("piece "));
        of_zones.map(|two| two[1].to_string()).collect()
    }

    /// A zone's first valuation has four numbers: 0 for a parameter that lacks, and a sign where one is negative. It
    /// need not have the least number of each parameter by itself.
    #[test]
    fn first_valuations_are_listed() {
        assert_eq!(firsts(&rows::no_limits()), ["first 0 0 0 0"]);
        assert_eq!(firsts(&rows::below_zero()), [""; 0]);
        assert_eq!(
            firsts(&rows::from_minus_p()),
            ["first -5 0 0 0", "first 0 0 0 0"]
        );
        assert_eq!(
            firsts(&rows::p_then_q()),
            ["first 1 0 0 0", "first 0 0 0 0"]
        );
        let sum = [at_most(1, 0, -5, [1, 1, 0, 0])];
        let small = rows::one_stay(&[range(0, 3); 2], &sum);
        assert_eq!(firsts(&small), ["first 2 3 0 0"]);
        let turned = [at_most(1, 0, -3, [-1, 2, 1, 0])];
        let below = rows::one_stay(&[range(-9, 9), range(-8, 5), range(-6, 4)], &turned);
        assert_eq!(firsts(&below), ["first -9 -5 4 0"]);
    }

    /// Sheet C is listed with its fourth coefficients and numbers; refusal 16 has one line.
    #[test]
    fn sheet_c_is_listed() {
        let text = "\
pieces 2 kept 220 cut 264
piece 0
first 0 -5 7 -2
ineq -20 1 -2 3 4
ineq -23 1 -2 3 3
ineq 2 0 0 0 1
bound 0 0 le 0 0 0 0 0
bound 0 1 le -3 0 0 0 -1
bound 1 0 none
bound 1 1 le 0 0 0 0 0
piece 1
first 1 -5 7 -3
ineq -20 1 -2 3 4
ineq -23 1 -2 3 3
ineq -3 0 0 0 -1
bound 0 0 le 0 0 0 0 0
bound 0 1 le 0 0 0 0 0
bound 1 0 none
bound 1 1 le 0 0 0 0 0
";
        assert_eq!(listing(&writer::file(&sheet_c())), text);
        let wide = writer::file(&of_widths(&[64, 64, 64, 2]));
        assert_eq!(listing(&wide), "refused 16 place 0\n");
    }

    /// With 1 - 0 < p and the move's guard < -3, strict bounds are listed as such, and a file that is
    /// refused has one line.
    #[test]
    fn strict_and_refused() {
        let mut sheet = sheet_a();
        sheet.locations[0].invariants[0].strict = true;
        sheet.transitions[0].guards[0].strict = true;
        let text = listing(&writer::file(&sheet));
        let wanted = "\
pieces 1 kept 7 cut 4
piece 0
first 4 0 0 0
ineq -1 1 0 0 0
ineq -4 1 0 0 0
bound 0 0 le 0 0 0 0 0
bound 0 1 lt -3 0 0 0 0
bound 1 0 none
bound 1 1 le 0 0 0 0 0
";
        assert_eq!(text, wanted);
        assert_eq!(listing(&[1, 4]), "refused 2 place 0\n");
        let unlinked = {
            sheet.route = vec![0, 0];
            writer::file(&sheet)
        };
        assert_eq!(listing(&unlinked), "refused 5 place 62\n");
    }
}
