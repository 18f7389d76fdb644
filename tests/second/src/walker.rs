//! A resource descriptor's bytes, and the walker over a caller's descriptors.

use crate::bytes::{big, put_big};

pub const DESCRIPTOR_LENGTH: usize = 20;
pub const RSC_IO: u16 = 0x4000;
pub const RSC_LAST: u16 = 0x8000;

/// A resource descriptor, big-endian in bytes.
#[derive(Clone, Copy, Debug, Default, PartialEq, Eq)]
pub struct Descriptor {
    pub next: u16,
    pub flags: u16,
    pub start: u32,
    pub length: u32,
    pub offset: u32,
    pub dmaoffset: u32,
}

impl Descriptor {
    pub fn from_bytes(bytes: &[u8; DESCRIPTOR_LENGTH]) -> Self {
        Descriptor {
            next: big(bytes, 0, 2) as u16,
            flags: big(bytes, 2, 2) as u16,
            start: big(bytes, 4, 4),
            length: big(bytes, 8, 4),
            offset: big(bytes, 12, 4),
            dmaoffset: big(bytes, 16, 4),
        }
    }

    pub fn to_bytes(self) -> [u8; DESCRIPTOR_LENGTH] {
        let mut bytes = [0; DESCRIPTOR_LENGTH];
        put_big(&mut bytes[0..2], u32::from(self.next));
        put_big(&mut bytes[2..4], u32::from(self.flags));
        put_big(&mut bytes[4..8], self.start);
        put_big(&mut bytes[8..12], self.length);
        put_big(&mut bytes[12..16], self.offset);
        put_big(&mut bytes[16..20], self.dmaoffset);
        bytes
    }
}

/// Steps through descriptors in lent bytes by their next field.
#[derive(Clone, Copy, Debug, PartialEq, Eq)]
pub struct Walker<'a> {
    pub bytes: &'a [u8],
    pub position: usize,
}

impl<'a> Walker<'a> {
    pub fn new(bytes: &'a [u8]) -> Self {
        Walker { bytes, position: 0 }
    }

    /// The descriptor at the position, which then moves on; none once ended.
    pub fn step(&mut self) -> Option<Descriptor> {
        let rest = self.bytes.get(self.position..)?;
        let descriptor = Descriptor::from_bytes(rest.first_chunk()?);
        let next = usize::from(descriptor.next);
        let ends = descriptor.flags & RSC_LAST != 0 || next < DESCRIPTOR_LENGTH;
        self.position = match ends {
            true => self.bytes.len(),
            false => self.position.saturating_add(next),
        };
        Some(descriptor)
    }
}
