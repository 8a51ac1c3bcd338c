//! Numbers in bytes, little-endian.

/// The number in the two bytes at an offset.
pub fn two(bytes: &[u8], at: usize) -> u16 {
    let bytes = bytes[at..at + 2].try_into().expect("two bytes");
    u16::from_le_bytes(bytes)
}

/// The number in the four bytes at an offset.
pub fn four(bytes: &[u8], at: usize) -> u32 {
    let bytes = bytes[at..at + 4].try_into().expect("four bytes");
    u32::from_le_bytes(bytes)
}

/// The Int that four bytes are, by the number in them (document 02, F-3): the sign comes of arithmetic, as in the engine.
pub fn int(word: u32) -> i32 {
    ((i64::from(word) + 2_147_483_648) % 4_294_967_296 - 2_147_483_648) as i32
}
