//! Stored records by the kind that they are of.

/// Records of one kind, in order.
pub struct Family<T> {
    pub name: &'static str,
    pub records: Vec<T>,
}

/// The records of all the families, in order.
pub fn records<T>(families: &[Family<T>]) -> impl Iterator<Item = &T> {
    families.iter().flat_map(|family| &family.records)
}

/// Prints each family with its first and last line of the results and how many bytes are stored of it, and then
/// what `more` prints, which gets the family and its first line.
pub fn list<T>(
    families: &[Family<T>],
    stored: fn(&T) -> Vec<u8>,
    mut more: impl FnMut(&Family<T>, usize),
) {
    let mut first = 1;
    for family in families {
        let last = first + family.records.len() - 1;
        let bytes: usize = family.records.iter().map(|r| stored(r).len()).sum();
        println!("lines {first} to {last}: {}, {bytes} bytes", family.name);
        more(family, first);
        first = last + 1;
    }
}

/// Prints what each case written by hand tries and what it must give, the first one at that line.
pub fn list_cases(first: usize, cases: impl Iterator<Item = (String, String)>) {
    for (line, (name, result)) in (first..).zip(cases) {
        println!("  line {line}: {name}: {result}");
    }
}
