//! The data calls of the second implementation, as C asks for them.

use crate::access::DataAccess;
use crate::calls::Answer;
use crate::editions::is_known;
use crate::model::width;
use second::{Board, Space, FUNC_NOT_SUPPORTED, GENERAL_ERROR};

// The calls for C refuse every other width before all else but an unknown edition; document 01
// has no such call.

pub fn read(board: &Board, cells: &[u8], access: DataAccess) -> Answer {
    let Some(width) = width(access.width) else {
        return Answer::read(other_width(access), 0);
    };
    let DataAccess { handle, address, call_edition, lent, .. } = access;
    let (cells, space) = (&cells[..lent], space(access));
    let (number, value) = board.read_data(cells, space, handle, address, width, call_edition);
    Answer::read(number, value)
}

pub fn fast_read(board: &Board, cells: &[u8], access: DataAccess) -> Answer {
    let Some(width) = width(access.width) else {
        return Answer::fast_read(u32::MAX, 1);
    };
    let DataAccess { handle, address, call_edition, lent, .. } = access;
    let (cells, space) = (&cells[..lent], space(access));
    let (value, fault) = board.fast_read_data(cells, space, handle, address, width, call_edition);
    Answer::fast_read(value, fault.into())
}

pub fn write(board: &Board, cells: &mut [u8], access: DataAccess, value: u32) -> Answer {
    let Some(width) = width(access.width) else {
        return Answer::number(other_width(access).into());
    };
    let DataAccess { handle, address, call_edition, lent, .. } = access;
    let (cells, space) = (&mut cells[..lent], space(access));
    let number = board.write_data(cells, space, handle, address, width, value, call_edition);
    Answer::number(number.into())
}

/// The number for a width that there is not.
fn other_width(access: DataAccess) -> i32 {
    match is_known(access.call_edition) {
        true => GENERAL_ERROR,
        false => FUNC_NOT_SUPPORTED,
    }
}

/// Memory for 0, I/O for every other number.
fn space(access: DataAccess) -> Space {
    match access.io {
        0 => Space::Memory,
        _ => Space::Io,
    }
}

#[cfg(test)]
mod tests {
    use super::*;
    use crate::calls::Call;
    use crate::model::Second;
    use second::board_b1::b1_image;
    use second::{DRAFT_1_9, LATER_TEXT};

    /// With an unknown edition too.
    #[test]
    fn widths_that_are_refused() {
        let mut model = Second::new(vec![0x5A; 8]);
        let editions = [(DRAFT_1_9, -8), (LATER_TEXT, -8), (0, -2), (3, -2), (0x102, -2)];
        for (width, (call_edition, number)) in
            [0, 3, 5, 0x101, u32::MAX].into_iter().flat_map(|width| editions.map(|e| (width, e)))
        {
            let access = DataAccess { io: 0, width, handle: 0, address: 1, call_edition, lent: 8 };
            let read = model.perform(&Call::ReadData(access));
            assert_eq!((read.number, read.values[0]), (number, 0));
            let fast = model.perform(&Call::FastReadData(access));
            assert_eq!((fast.number, fast.values[0]), (1, 0xFFFF_FFFF));
            assert_eq!(model.perform(&Call::WriteData { access, value: 1 }).number, number);
            assert_eq!(model.cells, [0x5A; 8]);
        }
    }

    /// Every number but 0 is I/O, and no more cells than are lent can be reached.
    #[test]
    fn spaces_and_lent_cells() {
        let mut model = Second::new(vec![0; 4096]);
        assert_eq!(model.perform(&Call::Load { image: b1_image(), lent: 4096 }).number, 0);
        let mut write = |io, lent| {
            let call_edition = LATER_TEXT;
            let access = DataAccess { io, width: 1, handle: 2, address: 0x105, call_edition, lent };
            model.perform(&Call::WriteData { access, value: 0x77 }).number
        };
        assert_eq!(write(0, 4096), -8);
        assert_eq!(write(1, 2063), -7);
        for io in [1, 2, 0x100, 0x8000_0000] {
            assert_eq!(write(io, 2064), 0);
        }
        assert_eq!(model.cells[2048 + 5], 0x77);
    }
}
