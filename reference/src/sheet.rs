//! The sheet file: the reader, and refusals 2 to 5 and 16 (paper 01, "The sheet file" and "When no
//! piece is given"; paper 02, request (i), for version 2 and refusal 16).

use std::ops::{Range, RangeInclusive};

/// The most bytes of a file.
pub const MOST_BYTES: usize = 4096;
/// The bytes of the contents; body 1 starts here.
pub const CONTENTS: usize = 22;
/// The most parameters, clocks, locations, transitions and route entries of a sheet, and the most
/// guards of one location or transition.
pub const MOST_PARAMETERS: usize = 4;
pub const MOST_CLOCKS: usize = 4;
pub const MOST_LOCATIONS: usize = 16;
pub const MOST_TRANSITIONS: usize = 32;
pub const MOST_ROUTE: usize = 32;
pub const MOST_GUARDS: usize = 6;

/// The numbers that a range's ends, a constant and a coefficient lie in.
const NUMBERS: RangeInclusive<i16> = -1000..=1000;
/// The most by which a range's highest passes its lowest.
const WIDEST: i16 = 63;
/// The most valuations of a sheet: what the product of its ranges' widths may come to.
pub const MOST_VALUATIONS: usize = 262_144;

/// How many parameters a sheet of that version can have, and how many coefficients its guards have.
pub const fn parameters_of(version: u8) -> usize {
    if version == 2 {
        MOST_PARAMETERS
    } else {
        3
    }
}

/// Why a file gives no sheet: the refusal's number, and its place in the file.
#[derive(Clone, Copy, Debug, PartialEq, Eq)]
pub struct Refusal {
    pub number: u8,
    pub place: usize,
}

/// A parameter's range (the paper's allowance).
#[derive(Clone, Copy, Debug, PartialEq, Eq)]
pub struct Parameter {
    pub lowest: i16,
    pub highest: i16,
}

impl Parameter {
    /// How many values it has.
    pub fn width(self) -> usize {
        (i32::from(self.highest) - i32::from(self.lowest) + 1) as usize
    }
}

/// How many valuations there are of those parameters: the product of their widths.
pub fn valuations(parameters: &[Parameter]) -> usize {
    parameters.iter().map(|p| p.width()).product()
}

/// A guard (the paper's limit): clock a - clock b, at most or below constant + sum of coefficient
/// times parameter. In a location it is an invariant (the paper's standing limit). In a sheet of
/// version 1 the fourth coefficient is 0.
#[derive(Clone, Copy, Debug, PartialEq, Eq)]
pub struct Guard {
    pub a: u8,
    pub b: u8,
    pub strict: bool,
    pub constant: i16,
    pub coefficients: [i16; MOST_PARAMETERS],
}

/// A location (the paper's stage).
#[derive(Clone, Debug, PartialEq, Eq)]
pub struct Location {
    pub invariants: Vec<Guard>,
}

/// A transition (the paper's move). Bit i - 1 of `resets` stands for clock i.
#[derive(Clone, Debug, PartialEq, Eq)]
pub struct Transition {
    pub from: u8,
    pub to: u8,
    pub resets: u8,
    pub guards: Vec<Guard>,
}

/// A sheet. `clocks` counts the sheet's clocks (the paper's watches) without clock 0, and `route`
/// holds numbers of transitions.
#[derive(Clone, Debug, PartialEq, Eq)]
pub struct Sheet {
    pub version: u8,
    pub parameters: Vec<Parameter>,
    pub clocks: u8,
    pub locations: Vec<Location>,
    pub transitions: Vec<Transition>,
    pub route: Vec<u8>,
}

impl Sheet {
    /// The guards of each location and then of each transition.
    pub fn guards_mut(&mut self) -> impl Iterator<Item = &mut Vec<Guard>> {
        let stays = self.locations.iter_mut().map(|l| &mut l.invariants);
        let moves = self.transitions.iter_mut().map(|t| &mut t.guards);
        stays.chain(moves)
    }
}

/// The sheet that the file holds, or the first of refusals 2, 3, 4, 16 and 5, each judged over the
/// whole file.
pub fn read(file: &[u8]) -> Result<Sheet, Refusal> {
    let [body1, body2, body3, body4] = contents(file)?;
    let version = file[0];
    let route_start = body4.start + 1;
    let parameters = parameters(Fields::new(file, body1), version)?;
    let (clocks, locations) = locations(Fields::new(file, body2), version, parameters.len())?;
    let counts = Counts {
        version,
        parameters: parameters.len(),
        clocks,
    };
    let transitions = transitions(Fields::new(file, body3), counts, locations.len())?;
    let route = route(Fields::new(file, body4), transitions.len())?;
    expect(valuations(&parameters) <= MOST_VALUATIONS, 16, 0)?;
    linked(&transitions, &route, route_start)?;
    Ok(Sheet {
        version,
        parameters,
        clocks,
        locations,
        transitions,
        route,
    })
}

/// The part of the file that is the body of a kind, or refusal 2 or 3 of the file, or 3 with place
/// 0 for a kind other than 1 to 4. (Where it is refused, the paper hands out an empty part.)
pub fn body(file: &[u8], kind: u8) -> Result<&[u8], Refusal> {
    let bodies = contents(file)?;
    for (k, range) in (1..).zip(bodies) {
        if k == kind {
            return Ok(&file[range]);
        }
    }
    refused(3, 0)
}

/// A refusal of that number at that place.
fn refused<T>(number: u8, place: usize) -> Result<T, Refusal> {
    Err(Refusal { number, place })
}

/// Nothing if the test is right, and otherwise a refusal of that number at that place.
fn expect(right: bool, number: u8, place: usize) -> Result<(), Refusal> {
    if right {
        Ok(())
    } else {
        refused(number, place)
    }
}

/// Where the four bodies lie in the file, or refusal 2 or 3.
fn contents(file: &[u8]) -> Result<[Range<usize>; 4], Refusal> {
    expect(CONTENTS <= file.len() && file.len() <= MOST_BYTES, 2, 0)?;
    expect(file[0] == 1 || file[0] == 2, 3, 0)?;
    expect(file[1] == 4, 3, 1)?;
    let mut bodies = [0..0, 0..0, 0..0, 0..0];
    let mut start = CONTENTS;
    for (i, range) in bodies.iter_mut().enumerate() {
        *range = entry(file, i, start)?;
        start = range.end;
    }
    Ok(bodies)
}

/// Where body i + 1 lies, by its entry of the contents, given where the last body ended.
fn entry(file: &[u8], i: usize, start: usize) -> Result<Range<usize>, Refusal> {
    let at = 2 + 5 * i;
    expect(usize::from(file[at]) == i + 1, 3, at)?;
    let offset = usize::from(u16::from_le_bytes([file[at + 1], file[at + 2]]));
    expect(offset == start, 3, at + 1)?;
    let length = usize::from(u16::from_le_bytes([file[at + 3], file[at + 4]]));
    let end = start + length;
    let right = if i == 3 {
        end == file.len()
    } else {
        end <= file.len()
    };
    expect(right, 3, at + 3)?;
    Ok(start..end)
}

/// The fields of one body, taken one after the other. Every refusal here is 4.
struct Fields<'a> {
    file: &'a [u8],
    at: usize,
    end: usize,
}

impl<'a> Fields<'a> {
    /// The fields of the body that lies at that range.
    fn new(file: &'a [u8], body: Range<usize>) -> Fields<'a> {
        Fields {
            file,
            at: body.start,
            end: body.end,
        }
    }

    /// The next N bytes, or a refusal at the body's end if it stops before them.
    fn take<const N: usize>(&mut self) -> Result<[u8; N], Refusal> {
        expect(self.at + N <= self.end, 4, self.end)?;
        let bytes = std::array::from_fn(|k| self.file[self.at + k]);
        self.at += N;
        Ok(bytes)
    }

    /// The next one-byte field, refused where it is not right.
    fn byte(&mut self, right: impl Fn(u8) -> bool) -> Result<u8, Refusal> {
        let place = self.at;
        let [value] = self.take()?;
        expect(right(value), 4, place)?;
        Ok(value)
    }

    /// The next one-byte field as a count that lies in that range.
    fn count(&mut self, range: RangeInclusive<usize>) -> Result<usize, Refusal> {
        let value = self.byte(|x| range.contains(&usize::from(x)))?;
        Ok(usize::from(value))
    }

    /// The next two-byte field with a sign, refused where it is not right.
    fn number(&mut self, right: impl Fn(i16) -> bool) -> Result<i16, Refusal> {
        let place = self.at;
        let value = i16::from_le_bytes(self.take()?);
        expect(right(value), 4, place)?;
        Ok(value)
    }

    /// Nothing if the body ends here, and otherwise a refusal at the first byte left over.
    fn done(&self) -> Result<(), Refusal> {
        expect(self.at == self.end, 4, self.at)
    }
}

/// What a guard's fields are judged by: the file's version, and the sheet's counts.
#[derive(Clone, Copy)]
struct Counts {
    version: u8,
    parameters: usize,
    clocks: u8,
}

/// That many items, one after the other, or the first refusal.
fn many<T>(count: usize, mut item: impl FnMut() -> Result<T, Refusal>) -> Result<Vec<T>, Refusal> {
    (0..count).map(|_| item()).collect()
}

/// Body 1: the parameters.
fn parameters(mut fields: Fields, version: u8) -> Result<Vec<Parameter>, Refusal> {
    let count = fields.count(0..=parameters_of(version))?;
    let list = many(count, || parameter(&mut fields))?;
    fields.done()?;
    Ok(list)
}

/// One parameter. That lowest is at most highest, and the difference at most 63, is judged at
/// highest.
fn parameter(fields: &mut Fields) -> Result<Parameter, Refusal> {
    let lowest = fields.number(|x| NUMBERS.contains(&x))?;
    let highest = fields.number(|x| NUMBERS.contains(&x) && lowest <= x && x - lowest <= WIDEST)?;
    Ok(Parameter { lowest, highest })
}

/// Body 2: the count of clocks, and the locations.
fn locations(
    mut fields: Fields,
    version: u8,
    parameters: usize,
) -> Result<(u8, Vec<Location>), Refusal> {
    let clocks = fields.byte(|x| 1 <= x && usize::from(x) <= MOST_CLOCKS)?;
    let counts = Counts {
        version,
        parameters,
        clocks,
    };
    let count = fields.count(1..=MOST_LOCATIONS)?;
    let list = many(count, || location(&mut fields, counts))?;
    fields.done()?;
    Ok((clocks, list))
}

/// One location.
fn location(fields: &mut Fields, counts: Counts) -> Result<Location, Refusal> {
    let invariants = guards(fields, counts)?;
    Ok(Location { invariants })
}

/// Body 3: the transitions.
fn transitions(
    mut fields: Fields,
    counts: Counts,
    locations: usize,
) -> Result<Vec<Transition>, Refusal> {
    let count = fields.count(0..=MOST_TRANSITIONS)?;
    let list = many(count, || transition(&mut fields, counts, locations))?;
    fields.done()?;
    Ok(list)
}

/// One transition.
fn transition(
    fields: &mut Fields,
    counts: Counts,
    locations: usize,
) -> Result<Transition, Refusal> {
    let from = fields.byte(|x| usize::from(x) < locations)?;
    let to = fields.byte(|x| usize::from(x) < locations)?;
    let resets = fields.byte(|x| x >> counts.clocks == 0)?;
    let guards = guards(fields, counts)?;
    Ok(Transition {
        from,
        to,
        resets,
        guards,
    })
}

/// Body 4: the route.
fn route(mut fields: Fields, transitions: usize) -> Result<Vec<u8>, Refusal> {
    let count = fields.count(0..=MOST_ROUTE)?;
    let list = many(count, || fields.byte(|x| usize::from(x) < transitions))?;
    fields.done()?;
    Ok(list)
}

/// A count of guards, and the guards.
fn guards(fields: &mut Fields, counts: Counts) -> Result<Vec<Guard>, Refusal> {
    let count = fields.count(0..=MOST_GUARDS)?;
    many(count, || guard(fields, counts))
}

/// One guard: 12 bytes in a file of version 1, 14 in one of version 2. That exactly one of a and b
/// is 0 is judged at b.
fn guard(fields: &mut Fields, counts: Counts) -> Result<Guard, Refusal> {
    let a = fields.byte(|x| x <= counts.clocks)?;
    let b = fields.byte(|x| x <= counts.clocks && (a == 0) != (x == 0))?;
    let relation = fields.byte(|x| x <= 1)?;
    fields.byte(|x| x == 0)?;
    let constant = fields.number(|x| NUMBERS.contains(&x))?;
    let mut coefficients = [0; MOST_PARAMETERS];
    let there = &mut coefficients[..parameters_of(counts.version)];
    for (k, coefficient) in there.iter_mut().enumerate() {
        let has = k < counts.parameters;
        *coefficient = fields.number(|x| x == 0 || has && NUMBERS.contains(&x))?;
    }
    Ok(Guard {
        a,
        b,
        strict: relation == 1,
        constant,
        coefficients,
    })
}

/// Nothing if the route's first transition starts in location 0 and each other one where the last
/// arrived, and otherwise refusal 5 at its byte. `start` is the offset of the route's first byte.
fn linked(transitions: &[Transition], route: &[u8], start: usize) -> Result<(), Refusal> {
    let mut at = 0;
    for (i, &number) in route.iter().enumerate() {
        let transition = &transitions[usize::from(number)];
        expect(transition.from == at, 5, start + i)?;
        at = transition.to;
    }
    Ok(())
}
