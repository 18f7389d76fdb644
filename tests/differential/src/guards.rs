//! Lent arrays and buffers between guard bytes, to see writes outside them.

const GUARD: u8 = 0xC9;

/// An array between guards. Guards are bytes, so no gap lies before or after it.
#[repr(C)]
pub struct Guarded<T> {
    before: [u8; 32],
    pub value: T,
    after: [u8; 32],
}

impl<T> Guarded<T> {
    pub fn new(value: T) -> Self {
        Guarded { before: [GUARD; 32], value, after: [GUARD; 32] }
    }

    pub fn intact(&self) -> bool {
        self.before == [GUARD; 32] && self.after == [GUARD; 32]
    }
}

/// The bytes before and after a buffer; odd, so that the buffer is not aligned.
const MARGIN: usize = 67;

/// A buffer of any length between guards.
pub struct GuardedBytes {
    bytes: Vec<u8>,
    length: usize,
}

impl GuardedBytes {
    pub fn new(contents: &[u8]) -> Self {
        let mut bytes = vec![GUARD; contents.len() + 2 * MARGIN];
        bytes[MARGIN..MARGIN + contents.len()].copy_from_slice(contents);
        GuardedBytes { bytes, length: contents.len() }
    }

    pub fn inside(&self) -> &[u8] {
        &self.bytes[MARGIN..MARGIN + self.length]
    }

    pub fn inside_mut(&mut self) -> &mut [u8] {
        &mut self.bytes[MARGIN..MARGIN + self.length]
    }

    pub fn intact(&self) -> bool {
        let (before, rest) = self.bytes.split_at(MARGIN);
        let after = &rest[self.length..];
        before.iter().chain(after).all(|&byte| byte == GUARD)
    }
}
