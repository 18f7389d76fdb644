//! What configuration and data calls name.

use second::DRAFT_1_9;
use std::fmt;

/// What a configuration call names. A width other than 1, 2 or 4 can be asked from C
/// alone.
#[derive(Clone, Copy)]
pub struct Access {
    pub width: u32,
    pub handle: u32,
    pub register: u8,
}

/// What a data call names, and how many bytes of the cell buffer are lent to it. The space
/// is memory for 0 and I/O for every other number. The address is the CPU's in draft 1.9,
/// the bus's in the later text.
#[derive(Clone, Copy)]
pub struct DataAccess {
    pub io: u32,
    pub width: u32,
    pub handle: u32,
    pub address: u32,
    pub call_edition: u32,
    pub lent: usize,
}

impl DataAccess {
    /// The bus address that it names, with the offset of its handle's function.
    pub fn bus(self, offset: u32) -> u32 {
        match self.call_edition {
            DRAFT_1_9 => self.address.wrapping_sub(offset),
            _ => self.address,
        }
    }

    /// The same bus address as a caller of another edition names it.
    pub fn said_in(self, call_edition: u32, offset: u32) -> Self {
        let bus = self.bus(offset);
        let address = match call_edition {
            DRAFT_1_9 => bus.wrapping_add(offset),
            _ => bus,
        };
        DataAccess { address, call_edition, ..self }
    }
}

impl fmt::Display for Access {
    fn fmt(&self, f: &mut fmt::Formatter) -> fmt::Result {
        let Access { width, handle, register } = self;
        write!(f, "width {width}, handle {handle:#x}, register {register:#x}")
    }
}

impl fmt::Display for DataAccess {
    fn fmt(&self, f: &mut fmt::Formatter) -> fmt::Result {
        let DataAccess { io, width, handle, address, call_edition, lent } = self;
        write!(f, "io {io:#x}, width {width}, handle {handle:#x}, address {address:#x}")?;
        write!(f, ", edition {call_edition:#x}, {lent} cells lent")
    }
}
