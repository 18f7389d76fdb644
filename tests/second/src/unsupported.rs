//! The three calls that are never supported, whatever they are given.

use crate::board::Board;
use crate::number::FUNC_NOT_SUPPORTED;

impl Board {
    pub fn special_cycle(&self, _bus: u8, _message: u32) -> i32 {
        FUNC_NOT_SUPPORTED
    }

    pub fn get_routing(&self, _handle: u32) -> i32 {
        FUNC_NOT_SUPPORTED
    }

    pub fn set_interrupt(&self, _handle: u32, _mode: u32) -> i32 {
        FUNC_NOT_SUPPORTED
    }
}
