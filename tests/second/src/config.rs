//! Configuration reads and writes.

use crate::board::Board;
use crate::bytes::little;
use crate::number::{
    fast_answer, plain_answer, Width, BAD_HANDLE, BAD_REGISTER_NUMBER, SUCCESSFUL,
};
use crate::record::{BASES, COMMAND, FIRST_BASE, MASKS, STATUS};

impl Board {
    /// The number and the value.
    pub fn read_config(&self, handle: u32, register: u8, width: Width) -> (i32, u32) {
        plain_answer(self.config_value(handle, register, width))
    }

    /// The value and the fault flag.
    pub fn fast_read_config(&self, handle: u32, register: u8, width: Width) -> (u32, bool) {
        fast_answer(self.config_value(handle, register, width), width)
    }

    /// Writes the low bytes of the value: masked bits take it, all others stay.
    pub fn write_config(&mut self, handle: u32, register: u8, width: Width, value: u32) -> i32 {
        let (place, first) = match self.config_place(handle, register, width) {
            Ok(found) => found,
            Err(number) => return number,
        };
        let record = &self.records[place];
        let registers = &mut self.registers[place];
        for (at, written) in (first..first + width.bytes()).zip(value.to_le_bytes()) {
            let old = registers[at];
            let mask = record[MASKS + at];
            registers[at] = old & !mask | taken(at, old, written) & mask;
        }
        if moves_windows(register, width) {
            self.refresh();
        }
        SUCCESSFUL
    }

    fn config_value(&self, handle: u32, register: u8, width: Width) -> Result<u32, i32> {
        let (place, first) = self.config_place(handle, register, width)?;
        Ok(little(&self.registers[place], first, width.bytes()))
    }

    /// The function's place and the first register byte, after the checks.
    fn config_place(&self, handle: u32, register: u8, width: Width) -> Result<(usize, usize), i32> {
        let place = self.place(handle).ok_or(BAD_HANDLE)?;
        let first = usize::from(register);
        if first % width.bytes() != 0 {
            return Err(BAD_REGISTER_NUMBER);
        }
        Ok((place, first))
    }
}

/// What the masked bits of a register byte become: what is written, but in status a 1 clears
/// its bit and a 0 leaves it (request E2), so that no write sets one.
fn taken(register: usize, old: u8, written: u8) -> u8 {
    if STATUS.contains(&register) {
        old & !written
    } else {
        written
    }
}

/// Whether an access addresses the command byte or a base register.
///
/// An accepted write that does works out the whole list afresh; every other write, refused
/// or not, leaves it. It shows only on an altered board, and there document 01 leaves the
/// list after a configuration write open: settled in docs/DECISIONS.md.
pub fn moves_windows(register: u8, width: Width) -> bool {
    let first = usize::from(register);
    let end = first + width.bytes();
    let touches = |from, to| first < to && from < end;
    touches(COMMAND, COMMAND + 1) || touches(FIRST_BASE, FIRST_BASE + 4 * BASES)
}
