//! Conversions between PCI bus addresses and CPU addresses.

use crate::board::Board;
use crate::bytes::big;
use crate::call_edition::CallEdition;
use crate::number::{plain_answer, BAD_HANDLE};
use crate::record::OFFSET;

impl Board {
    /// The number, and the CPU address of a bus address.
    pub fn bus_to_cpu(&self, handle: u32, address: u32) -> (i32, u32) {
        plain_answer(self.offset(handle).map(|by| address.wrapping_add(by)))
    }

    /// The number, and the bus address of a CPU address.
    pub fn cpu_to_bus(&self, handle: u32, address: u32) -> (i32, u32) {
        plain_answer(self.less_offset(handle, address))
    }

    /// The bus address that a data call names: draft 1.9 gives CPU addresses, in both spaces.
    pub(crate) fn bus_address(
        &self,
        handle: u32,
        address: u32,
        call_edition: CallEdition,
    ) -> Result<u32, i32> {
        match call_edition {
            CallEdition::Draft1_9 => self.less_offset(handle, address),
            CallEdition::LaterText => Ok(address),
        }
    }

    fn less_offset(&self, handle: u32, cpu_address: u32) -> Result<u32, i32> {
        self.offset(handle).map(|by| cpu_address.wrapping_sub(by))
    }

    fn offset(&self, handle: u32) -> Result<u32, i32> {
        let place = self.place(handle).ok_or(BAD_HANDLE)?;
        Ok(big(&self.records[place], OFFSET, 4))
    }
}
