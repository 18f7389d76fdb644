//! Numbers read from and written to byte slices, little-endian and big-endian.

fn part(bytes: &[u8], at: usize, width: usize) -> &[u8] {
    let end = at.saturating_add(width);
    bytes.get(at..end).unwrap_or(&[])
}

/// The number of up to 4 bytes at a place, low byte first; 0 past the end.
pub fn little(bytes: &[u8], at: usize, width: usize) -> u32 {
    let from_high = part(bytes, at, width).iter().rev();
    from_high.fold(0, |value, &byte| value << 8 | u32::from(byte))
}

/// The number of up to 4 bytes at a place, high byte first; 0 past the end.
pub fn big(bytes: &[u8], at: usize, width: usize) -> u32 {
    let from_high = part(bytes, at, width).iter();
    from_high.fold(0, |value, &byte| value << 8 | u32::from(byte))
}

/// Fills the bytes with the low part of the value, high byte first.
pub fn put_big(bytes: &mut [u8], value: u32) {
    let mut rest = value;
    for byte in bytes.iter_mut().rev() {
        *byte = rest as u8;
        rest >>= 8;
    }
}
