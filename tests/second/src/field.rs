//! Data from the field.

/// The start-up advertisement of a hub: the response byte, then entries.
pub fn hub_advertisement() -> Vec<u8> {
    let digits = include_str!("../../fixed/hub-advertisement.hex").trim();
    let byte = |place| u8::from_str_radix(&digits[place..place + 2], 16).expect("hex digits");
    (0..digits.len()).step_by(2).map(byte).collect()
}
