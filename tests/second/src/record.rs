//! The fields of a board image's record, and the rules a record must keep.

use crate::bytes::{big, little};
use std::ops::Range;

pub const RECORD_LENGTH: usize = 544;
/// Reset values (256), masks (256), six entries of 4, offset (4), dmaoffset (4).
pub type Record = [u8; RECORD_LENGTH];

/// Base registers of a function.
pub const BASES: usize = 6;

pub const REGISTERS: usize = 256;
pub const COMMAND: usize = 0x04;
pub const STATUS: Range<usize> = 0x06..0x08;
pub const HEADER_TYPE: usize = 0x0E;
pub const FIRST_BASE: usize = 0x10;
pub const LINE: usize = 0x3C;
pub const PIN: usize = 0x3D;

pub const MASKS: usize = 256;
pub const ENTRIES: usize = 512;
pub const OFFSET: usize = 536;
pub const DMAOFFSET: usize = 540;

/// The window entry of a base register; zeros where there is no such register.
pub fn entry(record: &Record, base: usize) -> [u8; 4] {
    let (entries, _) = record[ENTRIES..OFFSET].as_chunks::<4>();
    entries.get(base).copied().unwrap_or([0; 4])
}

/// The length exponent of a base register's window; outside 2..16 is no window.
pub fn exponent(record: &Record, base: usize) -> Option<u32> {
    let [k, _, _, _] = entry(record, base);
    (2..=16).contains(&k).then_some(u32::from(k))
}

/// The byte order of an entry: an unknown one is read as 0.
pub fn byte_order(record: &Record, base: usize) -> u8 {
    match entry(record, base) {
        [_, order @ (1 | 2 | 15), _, _] => order,
        _ => 0,
    }
}

/// The widths offered: bit 0 for 8 bits, bit 1 for 16, bit 2 for 32.
pub fn widths(record: &Record, base: usize) -> u8 {
    let [_, _, widths, _] = entry(record, base);
    widths & 7
}

/// The cells that all windows of a record need together.
pub fn cells_needed(record: &Record) -> u32 {
    let exponents = (0..BASES).filter_map(|base| exponent(record, base));
    exponents.map(|k| 1 << k).sum()
}

/// Whether a record keeps every rule of document 01.
pub fn keeps_rules(record: &Record) -> bool {
    header_fits(record)
        && masks_fit(record)
        && (0..BASES).all(|base| base_fits(record, base))
        && big(record, OFFSET, 4) % 4 == 0
}

fn header_fits(record: &Record) -> bool {
    little(record, 0, 2) != 0xFFFF
        && record[HEADER_TYPE] & 0x7F == 0
        && record[PIN] <= 4
        && record[0x30..0x34].iter().all(|&byte| byte == 0)
}

/// The registers that no write may change have no mask bits.
fn masks_fit(record: &Record) -> bool {
    let fixed = [0x00..0x04, 0x08..0x0C, 0x0E..0x0F, 0x2C..0x34, 0x3D..0x3E];
    let masks = &record[MASKS..ENTRIES];
    fixed.into_iter().all(|registers| masks[registers].iter().all(|&mask| mask == 0))
}

fn base_fits(record: &Record, base: usize) -> bool {
    let register = FIRST_BASE + 4 * base;
    let value = little(record, register, 4);
    let mask = little(record, MASKS + register, 4);
    let [k, order, widths, zero] = entry(record, base);
    if k == 0 {
        return (order, widths, zero, value, mask) == (0, 0, 0, 0, 0);
    }
    let io = value & 1 == 1;
    let least = if io { 2 } else { 4 };
    if !(least..=16).contains(&k) {
        return false;
    }
    let below = (1u32 << k) - 1;
    // I/O has its space bit alone; memory may have the prefetch bit.
    let low_bits_fit = if io { value & below == 1 } else { value & below & !8 == 0 };
    matches!(order, 0 | 1 | 2 | 15)
        && (1..=7).contains(&widths)
        && zero == 0
        && mask == !below
        && low_bits_fit
}
