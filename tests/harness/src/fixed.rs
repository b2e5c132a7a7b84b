//! The fixed cases of `tests/fixed/cases.txt`, put to the driver and to the second program.

mod kept;
mod line;

use crate::compare::{read_answer, Other};
use crate::driver::Driver;
use kept::{Calls, Kept};
use line::{read, Read};
use std::fs::read_to_string;
use std::io::{Error, Result};
use std::path::Path;

/// Puts the cases of a file to the driver; tells whether all agree.
pub fn compare_file(command: &[String], path: &str) -> Result<bool> {
    let text = read_to_string(path).map_err(|why| Error::other(format!("{path}: {why}")))?;
    let path = Path::new(path);
    let directory = path.parent().unwrap_or(Path::new("."));
    let name = path.file_name().unwrap_or_default().to_string_lossy();
    let mut driver = Driver::start(command)?;
    let mut kept = Kept::new();
    let (mut cases, mut faults) = (0, Vec::new());
    for (number, line) in (1..).zip(text.lines()) {
        let asked = asked(&mut kept, line, directory)
            .map_err(|why| Error::other(format!("{name}, line {number}: {why}")))?;
        cases += usize::from(asked.is_some());
        let differ = compare_calls(&mut driver, &asked.unwrap_or_default())?;
        if !differ.is_empty() {
            faults.push(format!("  line {number}: {line}\n{differ}"));
        }
    }
    if cases == 0 {
        return Err(Error::other(format!("{name} has no case")));
    }
    println!("{cases:>9} fixed cases, {:>3} differ: {name}", faults.len());
    faults.iter().for_each(|fault| print!("{fault}"));
    Ok(faults.is_empty())
}

/// The calls of a line that is a case.
fn asked(
    kept: &mut Kept,
    text: &str,
    directory: &Path,
) -> std::result::Result<Option<Calls>, String> {
    let Read::Line(mut line) = read(text, directory)? else {
        return Ok(None);
    };
    let calls = kept.meaning(&mut line)?;
    line.ends()?;
    match calls {
        Some(calls) if calls.is_empty() => Err("nothing is asked".to_string()),
        calls => Ok(calls),
    }
}

/// What differs, in lines.
fn compare_calls(driver: &mut Driver, calls: &Calls) -> Result<String> {
    let mut differ = String::new();
    for (name, case) in calls {
        driver.ask_one(name, &case.request)?;
        let others = read_answer(driver, case, &mut Vec::new())?;
        if !others.is_empty() {
            differ += &format!("  {name}\n{}", case.request.text());
            differ.extend(others.iter().map(Other::text));
        }
    }
    Ok(differ)
}

#[cfg(test)]
mod tests {
    use super::*;

    const FILE: &str = include_str!("../../fixed/cases.txt");

    fn directory() -> &'static Path {
        Path::new(concat!(env!("CARGO_MANIFEST_DIR"), "/../fixed"))
    }

    #[test]
    fn each_line_of_the_file_has_a_meaning() {
        let mut kept = Kept::new();
        let mut cases = 0;
        for line in FILE.lines() {
            let asked = asked(&mut kept, line, directory()).expect(line);
            cases += usize::from(asked.is_some());
        }
        let nothing = |line: &&str| line.is_empty() || line.starts_with(['#', 't']);
        let changes = |line: &&str| {
            let verb = line.split([' ', '\t']).nth(1);
            verb.is_some_and(|verb| ["new", "load", "set", "put"].contains(&verb))
        };
        let others = FILE.lines().filter(|line| nothing(line) || changes(line)).count();
        assert_eq!(cases + others, FILE.lines().count());
    }

    #[test]
    fn a_slice_is_read_until_no_byte_is_left_and_once_more() {
        let lines: [(&str, &[(&str, u8)]); 6] = [
            ("U outside held 4", &[("read", 0)]),
            ("U outside held 5", &[("read", 23)]),
            ("U inside held 5 from 1\t00 7E", &[("step", 23), ("read", 23), ("read", 23)]),
            ("U inside held 5 from 3\t00 7E", &[("read", 23)]),
            ("L hear limit 12 count 4 room 8 held 16 from 4\t7E 00 7E", &[("listen", 0)]),
            ("L hear limit 12 count 4 room 8 held 17", &[("listen", 23)]),
        ];
        for (line, due) in lines {
            let calls = asked(&mut Kept::new(), line, directory()).unwrap().unwrap();
            let answers = calls.iter().map(|(name, case)| (*name, case.answer_number().unwrap()));
            assert_eq!(answers.collect::<Vec<_>>(), due, "{line}");
        }
    }

    #[test]
    fn a_line_without_meaning_is_refused() {
        let bad = [
            ("X read", "no line begins with 'X'"),
            ("title HEADER", "no line begins with 'title'"),
            ("H reads", "'H reads' has no meaning"),
            ("H read room 4", "'room' has no meaning here"),
            ("H gap received 256 expected 0", "'received 256' is too large"),
            ("R take", "there is no 'room'"),
            ("R clear\t01", "bytes have no meaning here"),
            ("I build at 0 lent 1", "only 0 bytes can be lent"),
        ];
        for (line, fault) in bad {
            let found = asked(&mut Kept::new(), line, directory());
            assert_eq!(found.map(|_| ()), Err(fault.to_string()), "{line}");
        }
    }
}
