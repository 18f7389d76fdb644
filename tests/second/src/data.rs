//! Data reads and writes in windows, and the byte order of cells.

use crate::board::Board;
use crate::bytes::{big, put_big};
use crate::call_edition::CallEdition;
use crate::number::{
    fast_answer, plain_answer, Space, Width, BAD_HANDLE, BUFFER_TOO_SMALL, FUNC_NOT_SUPPORTED,
    GENERAL_ERROR, SUCCESSFUL,
};
use crate::record::{byte_order, widths, BASES};
use std::ops::Range;

/// What a data call names; the address is of the kind that its edition gives.
struct Target {
    space: Space,
    handle: u32,
    address: u32,
    width: Width,
    call_edition: u32,
}

/// Where an accepted access goes: a window's cells, and the distance from its start.
struct Access {
    first_cell: usize,
    distance: u32,
    order: u8,
}

impl Board {
    /// The number and the value.
    pub fn read_data(
        &self,
        cells: &[u8],
        space: Space,
        handle: u32,
        address: u32,
        width: Width,
        call_edition: u32,
    ) -> (i32, u32) {
        let target = Target { space, handle, address, width, call_edition };
        plain_answer(self.data_value(cells, &target))
    }

    /// The value and the fault flag.
    pub fn fast_read_data(
        &self,
        cells: &[u8],
        space: Space,
        handle: u32,
        address: u32,
        width: Width,
        call_edition: u32,
    ) -> (u32, bool) {
        let target = Target { space, handle, address, width, call_edition };
        fast_answer(self.data_value(cells, &target), width)
    }

    /// Stores the low bytes of the value, so that the same read gives them back.
    pub fn write_data(
        &self,
        cells: &mut [u8],
        space: Space,
        handle: u32,
        address: u32,
        width: Width,
        value: u32,
        call_edition: u32,
    ) -> i32 {
        let target = Target { space, handle, address, width, call_edition };
        let access = match self.data_access(cells.len(), &target) {
            Ok(access) => access,
            Err(number) => return number,
        };
        let window = cells.get_mut(access.first_cell..).unwrap_or(&mut []);
        match write_cells(window, access.order, access.distance, width, value) {
            true => SUCCESSFUL,
            false => BUFFER_TOO_SMALL,
        }
    }

    fn data_value(&self, cells: &[u8], target: &Target) -> Result<u32, i32> {
        let access = self.data_access(cells.len(), target)?;
        let window = cells.get(access.first_cell..).unwrap_or(&[]);
        read_cells(window, access.order, access.distance, target.width).ok_or(BUFFER_TOO_SMALL)
    }

    /// The checks of a data call in their order, but for a cell past the buffer.
    fn data_access(&self, room: usize, target: &Target) -> Result<Access, i32> {
        let &Target { space, handle, address, width, call_edition } = target;
        let call_edition = CallEdition::named(call_edition)?;
        let place = self.place(handle).ok_or(BAD_HANDLE)?;
        if room < self.total_cells() {
            return Err(BUFFER_TOO_SMALL);
        }
        let address = self.bus_address(handle, address, call_edition)?;
        if address as usize % width.bytes() != 0 {
            return Err(GENERAL_ERROR);
        }
        let window = self.window_at(space, handle, address).ok_or(GENERAL_ERROR)?;
        if window.contested {
            return Err(GENERAL_ERROR);
        }
        let record = &self.records[place];
        let base = window.base as usize;
        if widths(record, base) & width.offer_bit() == 0 {
            return Err(FUNC_NOT_SUPPORTED);
        }
        Ok(Access {
            first_cell: self.cell_offsets[BASES * place + base] as usize,
            distance: address - window.start,
            order: byte_order(record, base),
        })
    }
}

/// The value at a distance into a window's cells; none past their end.
pub fn read_cells(window: &[u8], order: u8, distance: u32, width: Width) -> Option<u32> {
    let cells = window.get(span(order, distance, width)?)?;
    Some(ordered(big(cells, 0, width.bytes()), order, width))
}

/// Stores a value at a distance into a window's cells; false past their end.
pub fn write_cells(window: &mut [u8], order: u8, distance: u32, width: Width, value: u32) -> bool {
    let Some(cells) = span(order, distance, width).and_then(|span| window.get_mut(span)) else {
        return false;
    };
    put_big(cells, ordered(value, order, width));
    true
}

/// The cells of an access: order 1 swaps addresses within four bytes.
fn span(order: u8, distance: u32, width: Width) -> Option<Range<usize>> {
    let swap = match (order, width) {
        (1, Width::Byte) => 3,
        (1, Width::Word) => 2,
        _ => 0,
    };
    let first = usize::try_from(distance ^ swap).ok()?;
    Some(first..first.checked_add(width.bytes())?)
}

/// Order 2 swaps the lanes of words and longwords; this undoes itself.
fn ordered(value: u32, order: u8, width: Width) -> u32 {
    match (order, width) {
        (2, Width::Word) => u32::from((value as u16).swap_bytes()),
        (2, Width::Long) => value.swap_bytes(),
        _ => value,
    }
}
