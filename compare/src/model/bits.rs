//! Bit handling shared by the register files.

/// Whether one bit of a word is 1.
pub fn bit(word: u32, place: u32) -> bool {
    word >> place & 1 == 1
}

/// The three-bit field (a CID) whose lowest bit is at `low`.
pub fn cid_field(word: u32, low: u32) -> u32 {
    word >> low & 7
}

/// `old` with the bits of `mask` taken from `new`.
pub fn blend(old: u32, new: u32, mask: u32) -> u32 {
    (old & !mask) | (new & mask)
}
