//! The numbers handed back, and the access widths and spaces a call can name.

pub const SUCCESSFUL: i32 = 0;
pub const FUNC_NOT_SUPPORTED: i32 = -2;
pub const BAD_VENDOR_ID: i32 = -3;
pub const DEVICE_NOT_FOUND: i32 = -4;
pub const BAD_REGISTER_NUMBER: i32 = -5;
pub const SET_FAILED: i32 = -6;
pub const BUFFER_TOO_SMALL: i32 = -7;
pub const GENERAL_ERROR: i32 = -8;
pub const BAD_HANDLE: i32 = -9;

/// The width of one configuration or data access.
#[derive(Clone, Copy, Debug, PartialEq, Eq)]
pub enum Width {
    Byte,
    Word,
    Long,
}

impl Width {
    pub const fn bytes(self) -> usize {
        match self {
            Width::Byte => 1,
            Width::Word => 2,
            Width::Long => 4,
        }
    }

    /// What a refused fast read gives.
    pub const fn all_ones(self) -> u32 {
        match self {
            Width::Byte => 0xFF,
            Width::Word => 0xFFFF,
            Width::Long => 0xFFFF_FFFF,
        }
    }

    /// The bit of a widths byte that offers this width.
    pub(crate) const fn offer_bit(self) -> u8 {
        match self {
            Width::Byte => 1,
            Width::Word => 2,
            Width::Long => 4,
        }
    }
}

/// The space a data call goes to.
#[derive(Clone, Copy, Debug, PartialEq, Eq)]
pub enum Space {
    Memory,
    Io,
}

/// The pair that a plain read hands back: a refused one gives the value 0.
pub(crate) fn plain_answer(outcome: Result<u32, i32>) -> (i32, u32) {
    match outcome {
        Ok(value) => (SUCCESSFUL, value),
        Err(number) => (number, 0),
    }
}

/// The value and fault flag that a fast read hands back.
pub(crate) fn fast_answer(outcome: Result<u32, i32>, width: Width) -> (u32, bool) {
    match outcome {
        Ok(value) => (value, false),
        Err(_) => (width.all_ones(), true),
    }
}
