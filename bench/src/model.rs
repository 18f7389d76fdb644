//! The same calls by the second implementation.

use crate::calls::{ChainHook, ConfigCall, DataCall, Image};
use second::{Board, Listing, Verdict};

pub struct Second {
    board: Board,
    pub cells: Vec<u8>,
}

impl Second {
    /// The board before the first load.
    pub fn new(cells: usize) -> Self {
        Second { board: Board::new(), cells: vec![0; cells] }
    }

    pub fn load(&mut self, image: &Image) -> Verdict {
        self.board.load(&image.0, &mut self.cells)
    }

    pub fn reset(&mut self, _: &()) -> i32 {
        self.board.reset(&mut self.cells)
    }

    pub fn read_config(&mut self, call: &ConfigCall) -> (i32, u32) {
        self.board.read_config(call.handle, call.register, call.width.width)
    }

    pub fn write_config(&mut self, call: &ConfigCall) -> i32 {
        self.board.write_config(call.handle, call.register, call.width.width, call.value)
    }

    pub fn read_data(&mut self, call: &DataCall) -> (i32, u32) {
        let DataCall { space, width, handle, address, call_edition, .. } = *call;
        let (space, width) = (space.space, width.width);
        self.board.read_data(&self.cells, space, handle, address, width, call_edition)
    }

    pub fn write_data(&mut self, call: &DataCall) -> i32 {
        let DataCall { space, width, handle, address, value, call_edition } = *call;
        let (cells, space, width) = (&mut self.cells, space.space, width.width);
        self.board.write_data(cells, space, handle, address, width, value, call_edition)
    }

    pub fn hook_interrupt(&mut self, handle: &u32) -> i32 {
        self.board.hook_interrupt(*handle, !handle, *handle)
    }

    pub fn list_chain(&mut self, at: &ChainHook) -> (i32, u32, u32, u32) {
        self.board.list_chain(at.line, at.index)
    }

    pub fn list_window(&mut self, n: &u32) -> Listing {
        self.board.list_window(*n)
    }
}
