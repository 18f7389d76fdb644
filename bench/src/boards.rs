//! The boards that calls are timed on: B1 of document 01, and a full one.

use second::board_b1::{b1_records, image_with_notes, plain_record, set_window, Shape};
use second::{Record, BASES, FUNCTIONS, WINDOWS};
use std::ops::Range;

use crate::calls::{AskedSpace, Image, IO, MEMORY};

/// The offset of a record.
const OFFSET: Range<usize> = 536..540;

/// A window of a board as it is loaded.
#[derive(Clone, Copy)]
pub struct Window {
    pub space: AskedSpace,
    pub handle: u32,
    pub base: u8,
    pub start: u32,
    /// The length exponent, and the widths offered: bit 0 for 8 bits, bit 1 for 16, bit 2 for 32.
    pub k: u8,
    pub widths: u8,
    /// What is added to its bus addresses for the CPU's.
    pub offset: u32,
}

/// A board with what the arguments of its rows are made of.
pub struct TimedBoard {
    pub name: &'static str,
    pub windows: Vec<Window>,
    /// Each line that has functions, with their number.
    pub lines: Vec<(u32, u32)>,
    records: Vec<Record>,
}

impl TimedBoard {
    pub fn functions(&self) -> u32 {
        self.records.len() as u32
    }

    /// Cells of all windows.
    pub fn cells(&self) -> usize {
        self.windows.iter().map(|window| 1 << window.k).sum()
    }

    /// Images of the board, with notes of several lengths before the records.
    pub fn images(&self) -> Vec<Image> {
        let notes = [0, 1, 6, 100];
        notes.map(|length| Image(image_with_notes(&vec![0x5A; length], &self.records))).into()
    }
}

pub fn b1() -> TimedBoard {
    let memory = |handle, start| {
        let (space, base, k, widths, offset) = (MEMORY, 0, 10, 7, 0);
        Window { space, handle, base, start, k, widths, offset }
    };
    let io = Window { space: IO, handle: 2, base: 1, start: 0x100, k: 4, widths: 1, offset: 0 };
    TimedBoard {
        name: "B1",
        windows: vec![memory(1, 0x8000_0000), memory(2, 0x8000_0400), io],
        lines: vec![(5, 2)],
        records: b1_records().into(),
    }
}

/// Sixteen functions with six windows each: base registers 0 to 2 in memory, 3 to 5 in I/O,
/// all of k 8 and apart, with every byte order. Their starts are in no order. Each function has
/// an offset of its own, by one of which CPU addresses wrap.
pub fn full() -> TimedBoard {
    let mut records = [plain_record(); FUNCTIONS];
    let mut windows = Vec::new();
    for slot in 0..WINDOWS {
        let (place, base) = (slot / BASES, slot % BASES);
        // 41 has no factor in common with 96: every slot gets another start.
        let start = 0x1000_0000 + 0x1000 * (slot as u32 * 41 % WINDOWS as u32);
        let (space, bit_0) = if base < 3 { (MEMORY, 0) } else { (IO, 1) };
        let order = [0, 1, 2, 15][slot % 4];
        let shape = Shape { register: start | bit_0, k: 8, order, widths: 7 };
        set_window(&mut records[place], base, shape);
        let (handle, base) = (place as u32 + 1, base as u8);
        let offset = handle.wrapping_mul(0x1100_0000);
        records[place][OFFSET].copy_from_slice(&offset.to_be_bytes());
        windows.push(Window { space, handle, base, start, k: 8, widths: 7, offset });
    }
    let lines = [3, 5, 9, 11];
    for (place, record) in records.iter_mut().enumerate() {
        record[0x3C] = lines[place % 4];
    }
    TimedBoard {
        name: "full",
        windows,
        lines: lines.map(|line| (line.into(), FUNCTIONS as u32 / 4)).into(),
        records: records.into(),
    }
}
