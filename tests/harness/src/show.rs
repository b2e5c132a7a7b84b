//! Bytes and numbers as text.

/// From so many alike on, one stands for all.
const MANY: usize = 4;

pub fn hex(bytes: &[u8]) -> String {
    bytes.iter().map(|byte| format!("{byte:02X}")).collect()
}

/// Bytes in hexadecimal, wider numbers in decimal.
pub fn values(bytes: &[u8], width: usize) -> String {
    if bytes.is_empty() {
        return "none".to_string();
    }
    let words: Vec<String> = bytes.chunks(width).map(value).collect();
    let runs = words.chunk_by(|one, next| one == next).map(|run| match run.len() {
        length @ MANY.. => format!("{} ({length} times)", run[0]),
        _ => run.join(" "),
    });
    runs.collect::<Vec<_>>().join(" ")
}

/// One place, low byte first.
pub fn value(place: &[u8]) -> String {
    if let [byte] = place {
        return format!("{byte:02X}");
    }
    let number = place.iter().rev().fold(0u64, |high, &low| high << 8 | u64::from(low));
    number.to_string()
}

#[cfg(test)]
mod tests {
    use super::*;

    #[test]
    fn many_alike_are_told_once() {
        assert_eq!(values(&[], 1), "none");
        assert_eq!(values(&[0x7E, 0, 0, 0, 1], 1), "7E 00 00 00 01");
        assert_eq!(values(&[0, 0, 0, 0, 0x0A], 1), "00 (4 times) 0A");
    }

    #[test]
    fn wider_numbers_are_decimal() {
        assert_eq!(values(&[0, 1, 0, 0, 255, 0, 0, 0], 4), "256 255");
        assert_eq!(values(&u64::MAX.to_le_bytes(), 8), "18446744073709551615");
    }
}
