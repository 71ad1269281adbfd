//! Numbers that look random, and check numbers, the same on both sides.

/// The number at a place of a sequence that looks random.
pub fn scattered(place: u64) -> u64 {
    place.wrapping_mul(0x9e37_79b9_7f4a_7c15)
}

/// The number at a place of a sequence of numbers below a limit.
pub fn below(limit: u64, place: u64) -> u64 {
    (scattered(place) >> 32) % limit
}

/// A check number with one more number in it.
pub fn mix(check: u64, number: u64) -> u64 {
    (check ^ number).wrapping_mul(0x0100_0000_01b3)
}

/// The check number of bytes.
pub fn mix_bytes(bytes: &[u8]) -> u64 {
    bytes.iter().fold(0, |check, byte| mix(check, u64::from(*byte)))
}
