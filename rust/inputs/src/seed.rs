use std::num::ParseIntError;

/// The gate gives the same verdict twice; KLUMDRAY_SEED asks for other inputs.
pub const USUAL_SEED: u64 = 0x4b6c_756d_6472_6179;

pub fn seed() -> u64 {
    let Ok(text) = std::env::var("KLUMDRAY_SEED") else {
        return USUAL_SEED;
    };
    number(&text).unwrap_or_else(|error| panic!("KLUMDRAY_SEED {text:?}: {error}"))
}

/// A number's text, hexadecimal behind 0x.
pub fn number(text: &str) -> Result<u64, ParseIntError> {
    match text.strip_prefix("0x") {
        Some(digits) => u64::from_str_radix(digits, 16),
        None => text.parse(),
    }
}
