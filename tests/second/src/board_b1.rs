//! Records and images for tests, board B1 of document 01 among them.

use crate::image::trailer_of;
use crate::record::{Record, ENTRIES, FIRST_BASE, LINE, MASKS, PIN, RECORD_LENGTH};

/// A window of a base register: start, with bit 0 set for I/O, and entry.
#[derive(Clone, Copy, Debug)]
pub struct Shape {
    pub register: u32,
    pub k: u8,
    pub order: u8,
    pub widths: u8,
}

/// A record with what both functions of B1 have, and no windows.
pub fn plain_record() -> Record {
    let mut record = [0; RECORD_LENGTH];
    record[0x00..0x04].copy_from_slice(&[0x0F, 0x0F, 0x01, 0x00]);
    record[0x04] = 3;
    record[MASKS + 0x04] = 3;
    record[0x09..0x0C].copy_from_slice(&[0x00, 0x80, 0x11]);
    record[LINE] = 5;
    record[MASKS + LINE] = 0xFF;
    record[PIN] = 1;
    record
}

/// Gives a record a window at base register 0 to 5, with the mask of its k.
pub fn set_window(record: &mut Record, base: usize, shape: Shape) {
    let register = FIRST_BASE + 4 * base;
    let mask = (u64::MAX << shape.k.min(63)) as u32;
    record[register..register + 4].copy_from_slice(&shape.register.to_le_bytes());
    record[MASKS + register..MASKS + register + 4].copy_from_slice(&mask.to_le_bytes());
    let entry = [shape.k, shape.order, shape.widths, 0];
    record[ENTRIES + 4 * base..ENTRIES + 4 * base + 4].copy_from_slice(&entry);
}

/// An image of the records after the notes, with a fitting trailer.
pub fn image_with_notes(notes: &[u8], records: &[Record]) -> Vec<u8> {
    [notes, records.as_flattened(), &trailer_of(records)].concat()
}

pub fn image_of(records: &[Record]) -> Vec<u8> {
    image_with_notes(&[], records)
}

pub fn b1_records() -> [Record; 2] {
    let memory = |register| Shape { register, k: 10, order: 1, widths: 7 };
    let io = Shape { register: 0x0000_0101, k: 4, order: 2, widths: 1 };
    let mut records = [plain_record(); 2];
    set_window(&mut records[0], 0, memory(0x8000_0000));
    set_window(&mut records[1], 0, memory(0x8000_0400));
    set_window(&mut records[1], 1, io);
    records
}

pub fn b1_image() -> Vec<u8> {
    image_of(&b1_records())
}
