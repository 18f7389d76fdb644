//! Device and class searches over the current registers.

use crate::board::Board;
use crate::bytes::little;
use crate::call_edition::CallEdition;
use crate::number::{BAD_VENDOR_ID, DEVICE_NOT_FOUND};
use crate::record::REGISTERS;

impl Board {
    /// The handle of the index-th match of device ID and vendor, or the refusal.
    pub fn find_pci_device(&self, id: u32, index: u32, call_edition: u32) -> i32 {
        let id = match later_id(id, call_edition) {
            Ok(id) => id,
            Err(number) => return number,
        };
        let any_vendor = id & 0xFFFF == 0xFFFF;
        self.find(index, |registers| any_vendor || little(registers, 0, 4) == id)
    }

    /// The handle of the index-th match of a class code, or the refusal.
    pub fn find_pci_classcode(&self, class: u32, index: u32, call_edition: u32) -> i32 {
        let class = match later_class(class, call_edition) {
            Ok(class) => class,
            Err(number) => return number,
        };
        let mut compared = 0;
        for (ignore_bit, part) in [(26, 0xFF_0000), (25, 0x00_FF00), (24, 0x00_00FF)] {
            if class >> ignore_bit & 1 == 0 {
                compared |= part;
            }
        }
        self.find(index, |registers| (little(registers, 0x09, 3) ^ class) & compared == 0)
    }

    fn find(&self, index: u32, matches: impl Fn(&[u8; REGISTERS]) -> bool) -> i32 {
        let functions = self.registers.iter().take(self.functions());
        let mut handles = functions.zip(1i32..).filter(|(registers, _)| matches(registers));
        match handles.nth(index as usize) {
            Some((_, handle)) => handle,
            None => DEVICE_NOT_FOUND,
        }
    }
}

/// The ID in the later text's form: device ID (31..16) and vendor (15..0).
fn later_id(id: u32, call_edition: u32) -> Result<u32, i32> {
    match CallEdition::named(call_edition)? {
        // In the later text's form this vendor would match all.
        CallEdition::Draft1_9 if id >> 16 == 0xFFFF => Err(BAD_VENDOR_ID),
        CallEdition::Draft1_9 => Ok(id.rotate_left(16)),
        CallEdition::LaterText => Ok(id),
    }
}

/// The class code in the later text's form: ignore bits (26..24) and class (23..0).
fn later_class(class: u32, call_edition: u32) -> Result<u32, i32> {
    match CallEdition::named(call_edition)? {
        CallEdition::Draft1_9 => Ok(class & 0x00FF_FFFF),
        CallEdition::LaterText => Ok(class),
    }
}
