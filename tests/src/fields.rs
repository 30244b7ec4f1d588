//! Big-endian fields at an offset of a slice.

/// The 16-bit field at `at`; the caller has made sure that it is there.
#[inline(always)]
pub fn be16(bytes: &[u8], at: usize) -> u16 {
    let two: [u8; 2] = bytes[at..at + 2].try_into().expect("two bytes");
    u16::from_be_bytes(two)
}

/// The 32-bit field at `at`; the caller has made sure that it is there.
#[inline(always)]
pub fn be32(bytes: &[u8], at: usize) -> u32 {
    let four: [u8; 4] = bytes[at..at + 4].try_into().expect("four bytes");
    u32::from_be_bytes(four)
}
