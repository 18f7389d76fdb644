//! A record of 544 bytes and the places of its fields, as document 01 lays it out.

pub const RECORD_LENGTH: usize = 544;
pub type Record = [u8; RECORD_LENGTH];

pub const REGISTERS: usize = 256;
pub const BASES: usize = 6;

pub const VENDOR: usize = 0x00;
pub const DEVICE: usize = 0x02;
pub const COMMAND: usize = 0x04;
pub const CLASS: usize = 0x09;
pub const FIRST_BASE: usize = 0x10;
pub const LINE: usize = 0x3C;
pub const PIN: usize = 0x3D;

pub const MASKS: usize = 256;
pub const ENTRIES: usize = 512;
pub const OFFSET: usize = 536;
pub const DMAOFFSET: usize = 540;

/// Sets bytes of a record to the low bytes of a number, least byte first.
pub fn put_little(record: &mut Record, at: usize, width: usize, number: u32) {
    record[at..at + width].copy_from_slice(&number.to_le_bytes()[..width]);
}

/// Sets four bytes of a record to a number, high byte first.
pub fn put_big(record: &mut Record, at: usize, number: u32) {
    record[at..at + 4].copy_from_slice(&number.to_be_bytes());
}

/// Sets the exponent of a base register's entry, and the mask 2^32 - 2^k.
pub fn put_exponent(record: &mut Record, base: usize, k: u8) {
    record[ENTRIES + 4 * base] = k;
    let mask = u32::MAX.checked_shl(u32::from(k)).unwrap_or(0);
    put_little(record, MASKS + FIRST_BASE + 4 * base, 4, mask);
}
