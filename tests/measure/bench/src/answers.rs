//! Answers packed into one number, as the exported calls give them.

/// A number and a place.
pub type Fault = (u8, usize);

pub fn packed(number: u8, input: u8, place: usize, count: u32) -> u64 {
    u64::from(number) + (u64::from(input) << 8) + ((place as u64) << 16) + (u64::from(count) << 32)
}

/// A refusal of the request.
pub fn refusal((number, place): Fault) -> u64 {
    packed(number, 1, place, 0)
}

/// Number, input, place and count.
pub fn taken_apart(packed: u64) -> [u64; 4] {
    [packed & 255, packed >> 8 & 255, packed >> 16 & 65_535, packed >> 32]
}
