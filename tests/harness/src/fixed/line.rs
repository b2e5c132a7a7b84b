//! A line of the fixed cases: a letter, a verb and its numbers, bytes. What is said of it in
//! `tests/fixed/cases.txt` is the form.

use std::fs::read_to_string;
use std::path::Path;

/// What the rest is where not every byte is given.
const REST: u8 = 0x41;

/// A line, or what is left of it once some of its numbers were taken.
#[derive(Clone, Debug, PartialEq, Eq)]
pub struct Line {
    pub letter: String,
    pub verb: String,
    numbers: Vec<(String, usize)>,
    bytes: Vec<u8>,
}

/// What a line is.
#[derive(Clone, Debug, PartialEq, Eq)]
pub enum Read {
    /// A comment, an empty line or a title.
    Nothing,
    Line(Line),
}

/// A file of bytes is looked for in `directory`.
pub fn read(text: &str, directory: &Path) -> Result<Read, String> {
    if text.is_empty() || text.starts_with('#') {
        return Ok(Read::Nothing);
    }
    let fields: Vec<&str> = text.split('\t').collect();
    if fields.len() > 3 {
        return Err("there are more than three fields".to_string());
    }
    let (head, bytes) = (fields[0], fields.get(1).copied().unwrap_or(""));
    if head == "title" {
        let alone = fields.len() == 3 && bytes.is_empty();
        return alone.then_some(Read::Nothing).ok_or("a title has its text alone".to_string());
    }
    let words: Vec<&str> = head.split(' ').collect();
    let [letter, verb, numbers @ ..] = &words[..] else {
        return Err("there is no verb".to_string());
    };
    let line = Line {
        letter: letter.to_string(),
        verb: verb.to_string(),
        numbers: numbers.chunks(2).map(number_and_word).collect::<Result<_, _>>()?,
        bytes: bytes_of(bytes, directory)?,
    };
    Ok(Read::Line(line))
}

fn number_and_word(pair: &[&str]) -> Result<(String, usize), String> {
    let [word, number] = pair else {
        return Err(format!("'{}' has no number", pair.join(" ")));
    };
    let number = number.parse().map_err(|_| format!("'{word} {number}' has no number"))?;
    Ok((word.to_string(), number))
}

fn bytes_of(field: &str, directory: &Path) -> Result<Vec<u8>, String> {
    if !field.ends_with(".hex") {
        return hexadecimal(field);
    }
    let text = read_to_string(directory.join(field)).map_err(|why| format!("{field}: {why}"))?;
    hexadecimal(&text)
}

/// Words of two digits for each byte.
fn hexadecimal(text: &str) -> Result<Vec<u8>, String> {
    let mut bytes = Vec::new();
    for word in text.split_whitespace() {
        for digits in word.as_bytes().chunks(2) {
            let digits = std::str::from_utf8(digits).ok().filter(|digits| digits.len() == 2);
            let byte = digits.filter(|digits| !digits.starts_with('+'));
            let byte = byte.and_then(|digits| u8::from_str_radix(digits, 16).ok());
            bytes.push(byte.ok_or_else(|| format!("'{word}' is not hexadecimal"))?);
        }
    }
    Ok(bytes)
}

impl Line {
    pub fn number(&mut self, word: &str) -> Result<usize, String> {
        self.number_or_none(word).ok_or_else(|| format!("there is no '{word}'"))
    }

    pub fn number_or_none(&mut self, word: &str) -> Option<usize> {
        let place = self.numbers.iter().position(|one| one.0 == word)?;
        Some(self.numbers.remove(place).1)
    }

    /// A number of a type that does not hold each.
    pub fn small<T: TryFrom<usize>>(&mut self, word: &str) -> Result<T, String> {
        let number = self.number(word)?;
        T::try_from(number).map_err(|_| format!("'{word} {number}' is too large"))
    }

    /// The bytes, filled up where their size is told.
    pub fn bytes(&mut self) -> Result<Vec<u8>, String> {
        let mut bytes = std::mem::take(&mut self.bytes);
        if let Some(size) = self.number_or_none("bytes") {
            if size < bytes.len() {
                return Err(format!("there are more than {size} bytes"));
            }
            bytes.resize(size, REST);
        }
        Ok(bytes)
    }

    /// Nothing of the line was left unread.
    pub fn ends(&self) -> Result<(), String> {
        match self.numbers.first() {
            Some((word, _)) => Err(format!("'{word}' has no meaning here")),
            None if !self.bytes.is_empty() => Err("bytes have no meaning here".to_string()),
            None => Ok(()),
        }
    }
}

#[cfg(test)]
mod tests {
    use super::*;

    fn line(text: &str) -> Line {
        match read(text, Path::new(".")) {
            Ok(Read::Line(line)) => line,
            other => panic!("{text}: {other:?}"),
        }
    }

    #[test]
    fn a_line_has_numbers_and_bytes() {
        let mut line = line("R once room 8 bytes 5\t05 00 1f\ta label");
        assert_eq!((line.letter.as_str(), line.verb.as_str()), ("R", "once"));
        assert_eq!(line.ends(), Err("'room' has no meaning here".to_string()));
        assert_eq!(line.number("room"), Ok(8));
        assert_eq!(line.number("room"), Err("there is no 'room'".to_string()));
        assert_eq!(line.ends(), Err("'bytes' has no meaning here".to_string()));
        assert_eq!(line.bytes(), Ok(vec![5, 0, 0x1F, 0x41, 0x41]));
        assert_eq!(line.ends(), Ok(()));
    }

    #[test]
    fn what_is_left_is_noticed() {
        let fault = |text: &str| line(text).ends().unwrap_err();
        assert_eq!(fault("E count\t01"), "bytes have no meaning here");
        assert_eq!(line("A x tag 256").small::<u8>("tag").unwrap_err(), "'tag 256' is too large");
        assert_eq!(line("A x bytes 1\t01 02").bytes().unwrap_err(), "there are more than 1 bytes");
    }

    #[test]
    fn comments_and_titles_are_nothing() {
        for text in ["", "# R once", "title\t\tHEADER"] {
            assert_eq!(read(text, Path::new(".")), Ok(Read::Nothing));
        }
    }

    #[test]
    fn bad_lines_are_refused() {
        let bad = [
            ("R", "there is no verb"),
            ("title", "a title has its text alone"),
            ("title\t01\tHEADER", "a title has its text alone"),
            ("R once room", "'room' has no number"),
            ("R once room x", "'room x' has no number"),
            ("R once room -1", "'room -1' has no number"),
            ("R once  room 1", "' room' has no number"),
            ("R once\t0", "'0' is not hexadecimal"),
            ("R once\t0G", "'0G' is not hexadecimal"),
            ("R once\t+1", "'+1' is not hexadecimal"),
            ("R once\t01\ta label\tmore", "there are more than three fields"),
        ];
        for (text, fault) in bad {
            assert_eq!(read(text, Path::new(".")), Err(fault.to_string()), "{text}");
        }
        assert!(read("A walk at 1\tnone.hex", Path::new(".")).is_err());
    }
}
