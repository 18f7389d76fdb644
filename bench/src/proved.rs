//! The calls by the proved library. This is the only unsafe code of the bench.
//!
//! Each gives its number and leaves its results in memory that is lent to it, which a timed
//! loop lends once for all its calls: what it would clear and copy is no part of the call.

use crate::calls::{ChainHook, ConfigCall, DataCall, Image};
use exports::*;
use second::{FUNCTIONS, RECORD_LENGTH, WINDOWS};

/// The lent parts and the cell buffer.
pub struct Proved {
    header: Header,
    records: Records,
    registers: Registers,
    windows: Windows,
    cell_offsets: CellOffsets,
    hooks: Hooks,
    used: UsedMarks,
    pub cells: Vec<u8>,
}

impl Proved {
    /// The board before the first load.
    pub fn new(cells: usize) -> Self {
        Proved {
            header: [0; 4],
            records: [0; FUNCTIONS * RECORD_LENGTH],
            registers: [0; FUNCTIONS * REGISTERS],
            windows: [0; WINDOWS],
            cell_offsets: [0; WINDOWS + 1],
            hooks: [0; 3 * FUNCTIONS],
            used: [0; 2 * FUNCTIONS],
            cells: vec![0; cells],
        }
    }

    pub fn load(&mut self, image: &Image, place: &mut u32) -> i32 {
        // SAFETY: each pointer is to an array or slice of its type and length, alive and
        // not otherwise used during the call.
        unsafe {
            bios_load(
                image.0.as_ptr(),
                image.0.len(),
                &mut self.header,
                &mut self.records,
                &mut self.registers,
                &mut self.windows,
                &mut self.cell_offsets,
                &mut self.hooks,
                &mut self.used,
                self.cells.as_mut_ptr(),
                self.cells.len(),
                place,
            )
        }
    }

    pub fn reset(&mut self, _: &(), _: &mut ()) -> i32 {
        // SAFETY: as in `load`.
        unsafe {
            bios_reset(
                &self.header,
                &self.records,
                &mut self.registers,
                &mut self.windows,
                &self.cell_offsets,
                &mut self.hooks,
                &mut self.used,
                self.cells.as_mut_ptr(),
                self.cells.len(),
            )
        }
    }

    pub fn read_config(&mut self, call: &ConfigCall, value: &mut u32) -> i32 {
        // SAFETY: as in `load`.
        unsafe {
            bios_read_config(
                &self.header,
                &self.registers,
                call.width.bytes,
                call.handle,
                call.register,
                value,
            )
        }
    }

    pub fn write_config(&mut self, call: &ConfigCall, _: &mut ()) -> i32 {
        // SAFETY: as in `load`.
        unsafe {
            bios_write_config(
                &self.header,
                &self.records,
                &mut self.registers,
                &mut self.windows,
                call.width.bytes,
                call.handle,
                call.register,
                call.value,
            )
        }
    }

    pub fn read_data(&mut self, call: &DataCall, value: &mut u32) -> i32 {
        // SAFETY: as in `load`.
        unsafe {
            bios_read_data(
                &self.header,
                &self.records,
                &self.windows,
                &self.cell_offsets,
                self.cells.as_ptr(),
                self.cells.len(),
                call.space.io,
                call.width.bytes,
                call.handle,
                call.address,
                call.call_edition,
                value,
            )
        }
    }

    pub fn write_data(&mut self, call: &DataCall, _: &mut ()) -> i32 {
        // SAFETY: as in `load`.
        unsafe {
            bios_write_data(
                &self.header,
                &self.records,
                &self.windows,
                &self.cell_offsets,
                self.cells.as_mut_ptr(),
                self.cells.len(),
                call.space.io,
                call.width.bytes,
                call.handle,
                call.address,
                call.value,
                call.call_edition,
            )
        }
    }

    pub fn hook_interrupt(&mut self, handle: &u32, _: &mut ()) -> i32 {
        let (header, records) = (&self.header, &self.records);
        // SAFETY: as in `load`.
        unsafe { bios_hook_interrupt(header, records, &mut self.hooks, *handle, !handle, *handle) }
    }

    pub fn list_chain(&mut self, at: &ChainHook, values: &mut [u64; 6]) -> i32 {
        // SAFETY: as in `load`.
        unsafe { bios_list_chain(&self.records, &self.hooks, at.line, at.index, values) }
    }

    pub fn list_window(&mut self, n: &u32, values: &mut [u64; 6]) -> i32 {
        // SAFETY: as in `load`.
        unsafe { bios_list_window(&self.windows, *n, values) }
    }
}
