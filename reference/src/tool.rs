//! What the tools that write and check stored results share.

use crate::family::{records, Family};
use std::path::Path;
use std::process::ExitCode;

/// What a tool stores in its folder: a data file of records that stand one after the other, each here as the
/// bytes that are stored of it, and a text of their results.
pub struct Stored {
    pub data: &'static str,
    pub records: Vec<Vec<u8>>,
    pub results: &'static str,
    pub text: String,
}

impl Stored {
    /// The records of those families in a data file of that name, and the lines that a program prints of them.
    pub fn vectors<T>(
        data: &'static str,
        families: &[Family<T>],
        stored: fn(&T) -> Vec<u8>,
        line: fn(&T) -> String,
    ) -> Stored {
        Stored {
            data,
            records: records(families).map(stored).collect(),
            results: "stdout",
            text: records(families).map(line).collect(),
        }
    }
}

/// What the command's words ask of the tool of that name: `--list`, `--check FOLDER`, or `FOLDER`, which
/// writes. An error's message is written out.
pub fn run(name: &str, list: fn(), stored: fn() -> Stored) -> ExitCode {
    let args: Vec<String> = std::env::args().skip(1).collect();
    let words: Vec<&str> = args.iter().map(String::as_str).collect();
    let done = match words[..] {
        ["--list"] => {
            list();
            return ExitCode::SUCCESS;
        }
        ["--check", folder] => check(&stored(), Path::new(folder)),
        [folder] if !folder.starts_with('-') => write(&stored(), Path::new(folder)),
        _ => Err(format!("use: {name} [--check] FOLDER, or --list")),
    };
    match done {
        Ok(message) => {
            println!("{name}: {message}");
            ExitCode::SUCCESS
        }
        Err(message) => {
            eprintln!("{name}: {message}");
            ExitCode::FAILURE
        }
    }
}

/// Writes the records and their results.
fn write(stored: &Stored, folder: &Path) -> Result<String, String> {
    put(&folder.join(stored.data), &stored.records.concat())?;
    put(&folder.join(stored.results), stored.text.as_bytes())?;
    Ok(format!("{} records written", stored.records.len()))
}

/// Compares the records and the results with those in the folder. The error names the first difference.
fn check(stored: &Stored, folder: &Path) -> Result<String, String> {
    same_records(&stored.records, &get(&folder.join(stored.data))?)?;
    let results = get(&folder.join(stored.results))?;
    same_lines(&stored.text, &String::from_utf8_lossy(&results))?;
    let count = stored.records.len();
    Ok(format!("the results of {count} stored records agree"))
}

/// Nothing if those bytes are the records one after the other.
fn same_records(records: &[Vec<u8>], mut bytes: &[u8]) -> Result<(), String> {
    for (n, record) in (1..).zip(records) {
        let rest = bytes.strip_prefix(&record[..]);
        bytes = rest.ok_or(format!("record {n} is not the one that is stored"))?;
    }
    if bytes.is_empty() {
        Ok(())
    } else {
        let count = records.len();
        Err(format!("{count} records are right, more are stored"))
    }
}

/// Nothing if both texts are the same.
fn same_lines(right: &str, stored: &str) -> Result<(), String> {
    let [mut rights, mut lines] = [right, stored].map(|text| text.split_inclusive('\n'));
    for n in 1.. {
        match (rights.next(), lines.next()) {
            (None, None) => break,
            (x, y) if x == y => {}
            (x, y) => return Err(format!("line {n}: {x:?} is right, {y:?} is stored")),
        }
    }
    Ok(())
}

/// The bytes of a file, or why it cannot be read.
fn get(path: &Path) -> Result<Vec<u8>, String> {
    std::fs::read(path).map_err(|why| format!("{}: {why}", path.display()))
}

/// Writes bytes to a file, with its folder if that is missing.
fn put(path: &Path, bytes: &[u8]) -> Result<(), String> {
    let folder = path.parent().unwrap_or(Path::new("."));
    std::fs::create_dir_all(folder)
        .and_then(|()| std::fs::write(path, bytes))
        .map_err(|why| format!("{}: {why}", path.display()))
}

#[cfg(test)]
mod tests {
    use super::*;

    /// The first difference between records, or lines, is found, also where one has more than the other.
    #[test]
    fn differences_are_found() {
        let records = [vec![1, 2], vec![], vec![3]];
        assert_eq!(same_records(&records, &[1, 2, 3]), Ok(()));
        for wrong in [&[1, 2][..], &[1, 2, 4], &[1, 2, 3, 4], &[]] {
            assert!(same_records(&records, wrong).is_err(), "{wrong:?}");
        }
        assert_eq!(same_lines("a\nb\n", "a\nb\n"), Ok(()));
        for wrong in ["a\n", "a\nb", "a\nc\n", "a\nb\nc\n", ""] {
            assert!(same_lines("a\nb\n", wrong).is_err(), "{wrong:?}");
        }
    }
}
