//! What the three files have in common: little-endian fields and the version.

/// The version that every file has.
pub const FORMAT_VERSION: u16 = 1;

/// "All 16-bit fields in every file are little-endian."
pub fn u16_at(bytes: &[u8], offset: usize) -> u16 {
    u16::from_le_bytes([bytes[offset], bytes[offset + 1]])
}
