//! The second implementation behind the same calls, on the same lent parts.

use crate::access::Access;
use crate::calls::{Answer, Call};
use crate::chain_calls::ChainCall;
use crate::chain_model;
use crate::data_model;
use crate::parts::Parts;
use crate::resource_model;
use second::{moves_windows, Board, Width, GENERAL_ERROR};

pub struct Second {
    pub parts: Parts,
    pub cells: Vec<u8>,
}

impl Second {
    pub fn new(cells: Vec<u8>) -> Self {
        Second { parts: Parts::of(&Board::new()), cells }
    }

    pub fn perform(&mut self, call: &Call) -> Answer {
        let mut board = self.parts.board();
        let answer = self.answer(&mut board, call);
        match (call, answer.number) {
            (Call::Load { .. }, 0) => self.parts = Parts::of(&board),
            (Call::Reset { .. }, 0) => {
                self.parts = Parts { header: self.parts.header, ..Parts::of(&board) };
            }
            (Call::WriteConfig { access, .. }, 0) => self.take_write(&board, *access),
            (Call::Chain(call), 0) => self.take_chain(&board, *call),
            // Every other call leaves the parts as they stand, whatever they hold.
            _ => assert!(board == self.parts.board(), "second changes the board in {call}"),
        }
        answer
    }

    fn answer(&mut self, board: &mut Board, call: &Call) -> Answer {
        match call {
            Call::Load { image, lent } => {
                let verdict = board.load(image, &mut self.cells[..*lent]);
                Answer::verdict(verdict.number, verdict.place)
            }
            Call::Reset { lent } => Answer::number(board.reset(&mut self.cells[..*lent]).into()),
            Call::WriteImage { out } => {
                let mut out = out.clone();
                let number = board.write_image(&mut out);
                Answer { out, ..Answer::number(number.into()) }
            }
            Call::ListWindow { n } => listed(board, *n),
            Call::CheckImage { image, room } => {
                let verdict = second::check_image(image, *room);
                Answer::verdict(verdict.number, verdict.place)
            }
            Call::FindPciDevice { id, index, call_edition } => {
                Answer::number(board.find_pci_device(*id, *index, *call_edition).into())
            }
            Call::FindPciClasscode { class_code, index, call_edition } => {
                Answer::number(board.find_pci_classcode(*class_code, *index, *call_edition).into())
            }
            Call::ReadConfig(access) => read(board, *access),
            Call::FastReadConfig(access) => fast_read(board, *access),
            Call::WriteConfig { access, value } => write(board, *access, *value),
            Call::ReadData(access) => data_model::read(board, &self.cells, *access),
            Call::FastReadData(access) => data_model::fast_read(board, &self.cells, *access),
            Call::WriteData { access, value } => {
                data_model::write(board, &mut self.cells, *access, *value)
            }
            Call::BusToCpu { handle, address } => converted(board.bus_to_cpu(*handle, *address)),
            Call::CpuToBus { handle, address } => converted(board.cpu_to_bus(*handle, *address)),
            Call::GetResource { handle, out } => resource_model::get_resource(board, *handle, out),
            Call::DescriptorStep { bytes, at } => resource_model::descriptor_step(bytes, *at),
            Call::Chain(call) => chain_model::answer(board, *call),
        }
    }

    /// Takes over what an accepted call changed: hooks, or used marks.
    fn take_chain(&mut self, board: &Board, call: ChainCall) {
        let changed = Parts::of(board);
        match call {
            ChainCall::Hook { .. } | ChainCall::Unhook { .. } => self.parts.hooks = changed.hooks,
            ChainCall::SetUsed { .. } => self.parts.used = changed.used,
            _ => {}
        }
        assert!(*board == self.parts.board(), "second changes more than it may in {call}");
    }

    /// Takes over what an accepted configuration write changed: registers, and the kept
    /// list where the write works it out afresh. Any other write leaves the numbers of the
    /// list bit for bit as they stand, and `second`'s windows have no place for all bits.
    fn take_write(&mut self, board: &Board, access: Access) {
        let written = Parts::of(board);
        self.parts.registers = written.registers;
        if width(access.width).is_some_and(|width| moves_windows(access.register, width)) {
            self.parts.windows = written.windows;
        }
        assert!(*board == self.parts.board(), "second changes more than a write may: {access}");
    }
}

/// The width of so many bytes, where it is one that `second` can be asked.
pub fn width(bytes: u32) -> Option<Width> {
    match bytes {
        1 => Some(Width::Byte),
        2 => Some(Width::Word),
        4 => Some(Width::Long),
        _ => None,
    }
}

// The calls for C refuse every other width before all else; document 01 has no such call.

fn read(board: &Board, access: Access) -> Answer {
    let Some(width) = width(access.width) else {
        return Answer::read(GENERAL_ERROR, 0);
    };
    let (number, value) = board.read_config(access.handle, access.register, width);
    Answer::read(number, value)
}

fn fast_read(board: &Board, access: Access) -> Answer {
    let Some(width) = width(access.width) else {
        return Answer::fast_read(u32::MAX, 1);
    };
    let (value, fault) = board.fast_read_config(access.handle, access.register, width);
    Answer::fast_read(value, fault.into())
}

fn write(board: &mut Board, access: Access, value: u32) -> Answer {
    let Some(width) = width(access.width) else {
        return Answer::number(GENERAL_ERROR.into());
    };
    Answer::number(board.write_config(access.handle, access.register, width, value).into())
}

fn converted((number, address): (i32, u32)) -> Answer {
    Answer::read(number, address)
}

fn listed(board: &Board, n: u32) -> Answer {
    let listing = board.list_window(n);
    let window = listing.window;
    let values = [
        window.io.into(),
        window.start.into(),
        window.length.into(),
        window.handle.into(),
        window.base.into(),
        window.contested.into(),
    ];
    Answer { values, ..Answer::number(listing.number.into()) }
}

#[cfg(test)]
mod tests {
    use super::*;
    use second::board_b1::b1_image;

    /// A write that does not refresh keeps every bit of an altered list, those above a
    /// kept window's fields too; one that does packs the list of the registers.
    #[test]
    fn kept_numbers_after_writes() {
        let mut model = Second::new(vec![0; 4096]);
        assert_eq!(model.perform(&Call::Load { image: b1_image(), lent: 4096 }).number, 0);
        let loaded = model.parts.windows;
        let altered = loaded.map(|number| !number);
        model.parts.windows = altered;
        model.parts.header[3] = 7;
        let mut write = |width, handle, register| {
            let access = Access { width, handle, register };
            let number = model.perform(&Call::WriteConfig { access, value: 3 }).number;
            (number, model.parts.windows == altered, model.parts.header[3])
        };
        assert_eq!(write(3, 1, 0x04), (-8, true, 7));
        assert_eq!(write(1, 3, 0x04), (-9, true, 7));
        assert_eq!(write(4, 1, 0x06), (-5, true, 7));
        assert_eq!(write(1, 1, 0x3C), (0, true, 7));
        assert_eq!(write(1, 1, 0x04), (0, false, 7));
        assert_eq!(model.parts.windows, loaded);
    }

    #[test]
    fn widths_that_are_refused() {
        let mut model = Second::new(Vec::new());
        for width in [0, 3, 5, 0x101, u32::MAX] {
            let access = Access { width, handle: 0, register: 1 };
            let read = model.perform(&Call::ReadConfig(access));
            assert_eq!((read.number, read.values[0]), (-8, 0));
            let fast = model.perform(&Call::FastReadConfig(access));
            assert_eq!((fast.number, fast.values[0]), (1, 0xFFFF_FFFF));
            assert_eq!(model.perform(&Call::WriteConfig { access, value: 1 }).number, -8);
        }
    }
}
