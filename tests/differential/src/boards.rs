//! Random boards whose images are accepted or refused by their cells alone (0, 7, 8).

use crate::random::Random;
use second::board_b1::{image_of, image_with_notes, plain_record, set_window, Shape};
use second::{Record, BASES, FUNCTIONS, RECORD_LENGTH};
use std::ops::Range;

pub const MASKS: usize = 256;
pub const ENTRIES: usize = 512;
pub const FIRST_BASE: usize = 0x10;
/// Registers whose masks are zero.
pub const FIXED: [usize; 18] = [
    0x00, 0x01, 0x02, 0x03, 0x08, 0x09, 0x0A, 0x0B, 0x0E, 0x2C, 0x2D, 0x2E, 0x2F, 0x30, 0x31, 0x32,
    0x33, 0x3D,
];
/// The offset, and its least byte.
pub const OFFSET: Range<usize> = 536..540;
pub const OFFSET_LOW: usize = 539;
/// The greatest offset: one that the rules allow, and of all the nearest to wrap.
pub const LAST_OFFSET: u32 = 0xFFFF_FFFC;

pub struct RandomBoard {
    pub notes: Vec<u8>,
    pub records: Vec<Record>,
}

impl RandomBoard {
    pub fn new(random: &mut Random) -> Self {
        let mut placed = Vec::new();
        let mut records = Vec::new();
        for exponents in exponents(random) {
            let mut record = record(random, &exponents, &mut placed);
            take_after(random, &mut record, &records);
            records.push(record);
        }
        routes(random, &mut records);
        RandomBoard { notes: notes(random), records }
    }

    pub fn image(&self) -> Vec<u8> {
        image_with_notes(&self.notes, &self.records)
    }

    /// The cells that all windows need.
    pub fn cells(&self) -> usize {
        let exponents = self.records.iter().flat_map(|record| record[ENTRIES..].chunks(4).take(6));
        exponents.map(|entry| if entry[0] == 0 { 0 } else { 1 << entry[0] }).sum()
    }
}

/// The exponents of each function's windows: full boards, totals about 65,536, any.
fn exponents(random: &mut Random) -> Vec<[u8; BASES]> {
    let functions = match random.one_in(4) {
        true => FUNCTIONS,
        false => random.within(1..=FUNCTIONS),
    };
    let mut exponents = vec![[0; BASES]; functions];
    let slots = exponents.as_flattened_mut();
    match random.below(6) {
        0 => total_about_the_limit(random, slots),
        1 => {
            let most = random.within(2..=10);
            slots.fill_with(|| random.within(2..=most) as u8);
        }
        _ => {
            let (most, sparse) = (random.within(2..=13), random.within(1..=6));
            let most = if random.one_in(10) { 16 } else { most };
            slots.fill_with(|| match random.one_in(sparse) {
                true => random.within(2..=most) as u8,
                false => 0,
            });
        }
    }
    exponents
}

/// Exponents whose windows have 65,536 cells in total, or one window more or less.
fn total_about_the_limit(random: &mut Random, slots: &mut [u8]) {
    let mut parts = vec![16];
    while parts.len() < slots.len() && !random.one_in(12) {
        let part = random.below(parts.len());
        if parts[part] > 2 {
            parts[part] -= 1;
            parts.push(parts[part]);
        }
    }
    match random.below(3) {
        0 if parts.len() < slots.len() => parts.push(2),
        1 => drop(parts.pop()),
        _ => {}
    }
    slots[..parts.len()].copy_from_slice(&parts);
    random.shuffle(slots);
}

fn record(random: &mut Random, exponents: &[u8; BASES], placed: &mut Vec<Shape>) -> Record {
    let mut record = header(random);
    for (base, &k) in exponents.iter().enumerate() {
        clear_base(&mut record, base);
        if k != 0 {
            let shape = shape(random, k, placed);
            set_window(&mut record, base, shape);
            placed.push(shape);
        }
    }
    record
}

/// A record that keeps the rules and has no windows, most of it at random.
fn header(random: &mut Random) -> Record {
    let mut record = [0; RECORD_LENGTH];
    match random.below(3) {
        0 => random.fill(&mut record),
        1 => record = plain_record(),
        _ => {
            for _ in 0..random.below(60) {
                record[random.below(RECORD_LENGTH)] = random.byte();
            }
        }
    }
    record[0x04] = random.pick(&[3, 3, 3, 3, 1, 2, 0, 0xFF, 0xFC]);
    if !random.one_in(4) {
        status(random, &mut record);
    }
    // A device like any other in draft 1.9, whose vendors end at FFFEh.
    if random.one_in(8) {
        record[0x02..0x04].fill(0xFF);
    }
    if random.one_in(2) {
        let offset = offset(random);
        record[OFFSET].copy_from_slice(&offset.to_be_bytes());
    }
    keep_rules(&mut record);
    record
}

/// Gives most bytes of status, and the one before them, bits that are set under their mask and
/// outside it.
fn status(random: &mut Random, record: &mut Record) {
    for register in [0x05, 0x06, 0x07] {
        let (value, mask) = (random.byte(), random.byte());
        record[register] = random.pick(&[value, value | mask, 0xFF, 0]);
        record[MASKS + register] = random.pick(&[mask, mask, 0xFF, 0]);
    }
}

/// The last offset, any, or one about a window's length, by which a CPU address may be the bus
/// address of another cell.
fn offset(random: &mut Random) -> u32 {
    let (any, near) = (random.long(), 1 << random.within(2..=10));
    random.pick(&[LAST_OFFSET, any, near, near.wrapping_neg()])
}

/// Makes a record one that keeps the rules and has no windows.
pub fn keep_rules(record: &mut Record) {
    record[0] &= 0x7F;
    record[0x0E] &= 0x80;
    record[0x30..0x34].fill(0);
    record[0x3D] %= 5;
    for register in FIXED {
        record[MASKS + register] = 0;
    }
    record[OFFSET_LOW] &= 0xFC;
    (0..BASES).for_each(|base| clear_base(record, base));
}

/// Sixteen records of FFh, the first of them, up to 4, keeping the rules. Only such boards,
/// which are all refused, have a record sum above 2^21.
pub fn great_sum(sound: usize) -> [Record; FUNCTIONS] {
    let mut records = [[0xFF; RECORD_LENGTH]; FUNCTIONS];
    records[..sound].iter_mut().for_each(keep_rules);
    records
}

/// Gives half of the records some of an earlier one's vendor, device and class bytes, so
/// that searches match several functions and not all.
fn take_after(random: &mut Random, record: &mut Record, earlier: &[Record]) {
    if earlier.is_empty() || random.one_in(2) {
        return;
    }
    let other = &earlier[random.below(earlier.len())];
    for field in [0x00..0x02, 0x02..0x04, 0x09..0x0A, 0x0A..0x0B, 0x0B..0x0C] {
        if !random.one_in(3) {
            record[field.clone()].copy_from_slice(&other[field]);
        }
    }
}

/// Gives most boards pins and lines that can be hooked, on a few lines, so that chains get
/// long; at times one function has none.
fn routes(random: &mut Random, records: &mut [Record]) {
    if random.one_in(3) {
        return;
    }
    let lines = [random.below(16) as u8, random.below(16) as u8, random.pick(&[0, 15])];
    for record in records.iter_mut() {
        record[0x3C] = random.pick(&lines);
        record[0x3D] = random.within(1..=4) as u8;
    }
    if random.one_in(2) {
        let place = random.below(records.len());
        match random.one_in(2) {
            true => records[place][0x3C] = random.pick(&[16, 17, 0x85, 255]),
            false => records[place][0x3D] = 0,
        }
    }
}

pub fn clear_base(record: &mut Record, base: usize) {
    let register = FIRST_BASE + 4 * base;
    record[register..register + 4].fill(0);
    record[MASKS + register..MASKS + register + 4].fill(0);
    record[ENTRIES + 4 * base..ENTRIES + 4 * base + 4].fill(0);
}

/// A window of an exponent from 2 to 16, placed with regard to those before it.
pub fn shape(random: &mut Random, k: u8, placed: &[Shape]) -> Shape {
    let start = (start(random, k, placed) as u32) >> k << k;
    let low_bits = match k < 4 || random.one_in(3) {
        true => 1,
        false => random.pick(&[0, 8]),
    };
    Shape {
        register: start | low_bits,
        k,
        order: random.pick(&[0, 1, 2, 15]),
        widths: random.within(1..=7) as u8,
    }
}

/// A start before its low bits are cleared; only its low 32 bits count.
fn start(random: &mut Random, k: u8, placed: &[Shape]) -> u64 {
    let cluster = 0x8000_0000 + random.below(0x4000) as u64;
    let Some(other) = (!placed.is_empty()).then(|| random.pick(placed)) else {
        return cluster;
    };
    let (other_start, other_length) = (u64::from(other.register), 1 << other.k);
    match random.below(16) {
        0 => 0,
        1 => (1 << 32) - (1 << k),
        2 => random.number(),
        3 | 4 => other_start,
        5..=7 => other_start + other_length,
        8 | 9 => other_start.wrapping_sub(1 << k),
        10 | 11 => other_start + random.below(other_length as usize) as u64,
        12 => 0xFFFF_0000 + random.below(0x1_0000) as u64,
        13 => random.below(0x1000) as u64,
        _ => cluster,
    }
}

/// Notes: none, any bytes, another board's image, or what looks like a trailer.
fn notes(random: &mut Random) -> Vec<u8> {
    match random.below(8) {
        0 => {
            let length = random.below(2000);
            random.bytes(length)
        }
        1 => image_of(&[plain_record()]),
        2 => image_of(&[plain_record(); 2])[2 * RECORD_LENGTH..].to_vec(),
        3 => vec![random.byte(); random.below(40)],
        _ => Vec::new(),
    }
}
