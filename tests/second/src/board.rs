//! The board's state, and the calls on all of it: load, reset, image writer.

use crate::image::{image_length, loadable_records, trailer_of, Verdict, TRAILER_LENGTH};
use crate::interrupt::Hook;
use crate::number::{BUFFER_TOO_SMALL, SUCCESSFUL};
use crate::record::{exponent, Record, BASES, RECORD_LENGTH, REGISTERS};
use crate::used::Used;
use crate::windows::{KeptWindow, WINDOWS};

/// The most functions a board can have.
pub const FUNCTIONS: usize = 16;

/// The board. A test may set any field to anything; it is read as it stands.
#[derive(Clone, Debug, PartialEq, Eq)]
pub struct Board {
    /// Functions; above 16 is read as 16.
    pub count: u32,
    pub records: [Record; FUNCTIONS],
    pub registers: [[u8; REGISTERS]; FUNCTIONS],
    /// The open windows in listing order; the first of length 0 ends it.
    pub list: [KeptWindow; WINDOWS],
    /// Where the cells of each base register begin; the total comes last.
    pub cell_offsets: [u32; WINDOWS + 1],
    /// Line by line, hooking order within a line; an entry with handle 0 is no hook.
    pub hooks: [Hook; FUNCTIONS],
    pub used: [Used; FUNCTIONS],
}

impl Default for Board {
    fn default() -> Self {
        Self::new()
    }
}

impl Board {
    /// The board before the first load.
    pub fn new() -> Self {
        Board {
            count: 0,
            records: [[0; RECORD_LENGTH]; FUNCTIONS],
            registers: [[0; REGISTERS]; FUNCTIONS],
            list: [KeptWindow::default(); WINDOWS],
            cell_offsets: [0; WINDOWS + 1],
            hooks: [Hook::default(); FUNCTIONS],
            used: [Used::default(); FUNCTIONS],
        }
    }

    /// The number of functions, never above 16.
    pub fn functions(&self) -> usize {
        (self.count as usize).min(FUNCTIONS)
    }

    /// The place of a good handle's function, always below 16.
    pub(crate) fn place(&self, handle: u32) -> Option<usize> {
        let place = handle.checked_sub(1)? as usize;
        (place < self.functions()).then_some(place)
    }

    /// The cells that the loaded board needs.
    pub(crate) fn total_cells(&self) -> usize {
        self.cell_offsets[WINDOWS] as usize
    }

    /// Loads an image; a refused one leaves board and cells as they are.
    pub fn load(&mut self, image: &[u8], cells: &mut [u8]) -> Verdict {
        let records = match loadable_records(image, cells.len()) {
            Ok(records) => records,
            Err(verdict) => return verdict,
        };
        *self = Board::new();
        self.count = records.len() as u32;
        for (kept, record) in self.records.iter_mut().zip(records) {
            *kept = *record;
        }
        self.cell_offsets = cell_offsets(&self.records);
        self.start_afresh(cells);
        Verdict::default()
    }

    /// Puts the board back to what the load made of it.
    pub fn reset(&mut self, cells: &mut [u8]) -> i32 {
        if cells.len() < self.total_cells() {
            return BUFFER_TOO_SMALL;
        }
        self.start_afresh(cells);
        SUCCESSFUL
    }

    fn start_afresh(&mut self, cells: &mut [u8]) {
        // All 16 places, whatever the count: settled in docs/DECISIONS.md. Past the
        // count the records are zero, so only on an altered board does it show.
        for (registers, record) in self.registers.iter_mut().zip(&self.records) {
            registers.copy_from_slice(&record[..REGISTERS]);
        }
        // Bytes past the total are the caller's.
        if let Some(needed) = cells.get_mut(..self.total_cells()) {
            needed.fill(0);
        }
        self.hooks = [Hook::default(); FUNCTIONS];
        self.used = [Used::default(); FUNCTIONS];
        self.refresh();
    }

    /// Writes the loaded image without notes: 0, 1 output too short, 3 empty board.
    pub fn write_image(&self, out: &mut [u8]) -> u32 {
        let records = &self.records[..self.functions()];
        let Some(image) = out.get_mut(..image_length(records.len())) else {
            return 1;
        };
        if records.is_empty() {
            return 3;
        }
        let Some((body, trailer)) = image.split_last_chunk_mut::<TRAILER_LENGTH>() else {
            return 1;
        };
        body.copy_from_slice(records.as_flattened());
        *trailer = trailer_of(records);
        0
    }
}

/// The running total of cells before each base register, and the total.
fn cell_offsets(records: &[Record; FUNCTIONS]) -> [u32; WINDOWS + 1] {
    let mut offsets = [0; WINDOWS + 1];
    let mut total = 0;
    for (register, offset) in offsets.iter_mut().enumerate() {
        *offset = total;
        let record = records.get(register / BASES);
        let k = record.and_then(|record| exponent(record, register % BASES));
        total += k.map_or(0, |k| 1 << k);
    }
    offsets
}
