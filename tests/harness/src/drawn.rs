//! Drawn numbers as a word of a command line: hexadecimal, with commas between them, a count behind
//! a colon where one stands several times in a row. Zeros at the end are left out.

/// The most that a word may stand for.
const MOST: usize = 1 << 26;

pub fn text(numbers: &[u64]) -> String {
    let used = numbers.iter().rposition(|&number| number != 0).map_or(0, |last| last + 1);
    let runs = numbers[..used].chunk_by(|one, next| one == next).map(|run| match run.len() {
        1 => format!("{:x}", run[0]),
        length => format!("{:x}:{length}", run[0]),
    });
    let text = runs.collect::<Vec<_>>().join(",");
    if text.is_empty() {
        "0".to_string()
    } else {
        text
    }
}

pub fn parse(text: &str) -> Option<Vec<u64>> {
    let mut numbers = Vec::new();
    for word in text.split(',') {
        let (number, count) = word.split_once(':').unwrap_or((word, "1"));
        let (number, count): (u64, usize) =
            (u64::from_str_radix(number, 16).ok()?, count.parse().ok()?);
        if count > MOST - numbers.len() {
            return None;
        }
        numbers.resize(numbers.len() + count, number);
    }
    Some(numbers)
}

#[cfg(test)]
mod tests {
    use super::*;

    #[test]
    fn what_is_written_is_read() {
        let lists: [(&[u64], &str); 4] = [
            (&[], "0"),
            (&[0, 0, 0x70000, 0, 0], "0:2,70000"),
            (&[u64::MAX, 1], "ffffffffffffffff,1"),
            (&[5, 5, 5], "5:3"),
        ];
        for (numbers, word) in lists {
            assert_eq!(text(numbers), word);
            let read = parse(word).unwrap();
            let behind = numbers.len().max(read.len());
            let padded = |list: &[u64]| [list, &vec![0; behind - list.len()]].concat();
            assert_eq!(padded(&read), padded(numbers));
        }
    }

    #[test]
    fn what_is_no_list_is_refused() {
        for word in ["", "1,", "g", "1:", "1:x", "-1", "0:999999999999", "10000000000000000"] {
            assert_eq!(parse(word), None, "{word}");
        }
    }
}
