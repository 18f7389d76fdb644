//! Resource descriptors of a function's windows.

use crate::board::Board;
use crate::bytes::{big, little};
use crate::number::{BAD_HANDLE, BUFFER_TOO_SMALL, GENERAL_ERROR, SUCCESSFUL};
use crate::record::{byte_order, exponent, widths, BASES, DMAOFFSET, FIRST_BASE, OFFSET};
use crate::walker::{Descriptor, DESCRIPTOR_LENGTH, RSC_IO, RSC_LAST};

impl Board {
    /// Writes a descriptor for each window, open or not, in base register order.
    pub fn get_resource(&self, handle: u32, out: &mut [u8]) -> i32 {
        let Some(place) = self.place(handle) else {
            return BAD_HANDLE;
        };
        let has_window = |base: &usize| exponent(&self.records[place], *base).is_some();
        let Some(last) = (0..BASES).rev().find(has_window) else {
            return GENERAL_ERROR;
        };
        let needed = (0..BASES).filter(has_window).count() * DESCRIPTOR_LENGTH;
        let Some(out) = out.get_mut(..needed) else {
            return BUFFER_TOO_SMALL;
        };
        let bases = (0..BASES).filter(has_window);
        let (parts, _) = out.as_chunks_mut::<DESCRIPTOR_LENGTH>();
        for (base, part) in bases.zip(parts) {
            *part = self.descriptor(place, base, base == last).to_bytes();
        }
        SUCCESSFUL
    }

    fn descriptor(&self, place: usize, base: usize, last: bool) -> Descriptor {
        let record = &self.records[place];
        let io = little(&self.registers[place], FIRST_BASE + 4 * base, 1) & 1 == 1;
        let space = if io { RSC_IO } else { 0 };
        let end = if last { RSC_LAST } else { 0 };
        let offered = u16::from(widths(record, base)) << 8;
        Descriptor {
            next: DESCRIPTOR_LENGTH as u16,
            flags: space | end | offered | u16::from(byte_order(record, base)),
            start: self.usable_start(place as u32 + 1, base as u32),
            length: exponent(record, base).map_or(0, |k| 1 << k),
            offset: big(record, OFFSET, 4),
            dmaoffset: big(record, DMAOFFSET, 4),
        }
    }

    /// The start of a window by the kept list; 0 when closed or contested.
    fn usable_start(&self, handle: u32, base: u32) -> u32 {
        self.kept_windows()
            .find(|window| window.handle == handle && window.base == base)
            .filter(|window| !window.contested)
            .map_or(0, |window| window.start)
    }
}
