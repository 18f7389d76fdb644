//! A data call with what it was lent, read as docs/DECISIONS.md reads an altered board: which
//! kept window it takes, and which cells.

use crate::access::DataAccess;
use crate::boards::ENTRIES;
use crate::data_arguments::offset;
use crate::data_model;
use crate::parts::Parts;
use second::{Board, KeptWindow, BASES, RECORD_LENGTH, WINDOWS};

pub struct DataCase<'a> {
    parts: &'a Parts,
    board: &'a Board,
    pub cells: &'a [u8],
    pub access: DataAccess,
    /// The bus address that it names.
    pub bus: u32,
    /// The place of its width among 1, 2 and 4.
    pub width: usize,
    /// The number of the plain read; a write of the same has it too, and a fast read none.
    pub number: i64,
}

/// Whether a kept window's base register is one that functions have.
pub fn has_entry(window: &KeptWindow) -> bool {
    (window.base as usize) < BASES
}

impl<'a> DataCase<'a> {
    /// A call of any width but 1, 2 and 4 is none. The board is that of the parts.
    pub fn new(
        parts: &'a Parts,
        board: &'a Board,
        cells: &'a [u8],
        access: DataAccess,
    ) -> Option<Self> {
        let width = [1, 2, 4].iter().position(|&width| width == access.width)?;
        let bus = access.bus(offset(parts, access.handle));
        let number = data_model::read(board, cells, access).number;
        Some(DataCase { parts, board, cells, access, bus, width, number })
    }

    /// The number of another call on the same.
    pub fn number_of(&self, access: DataAccess) -> i64 {
        data_model::read(self.board, self.cells, access).number
    }

    pub fn lent(&self) -> u64 {
        self.access.lent as u64
    }

    pub fn total(&self) -> u64 {
        self.parts.cell_offsets[WINDOWS].into()
    }

    pub fn aligned(&self) -> bool {
        self.bus.is_multiple_of(self.access.width)
    }

    /// The windows of the list in the call's space.
    pub fn windows(&self) -> Vec<KeptWindow> {
        let mut windows = self.parts.listed();
        windows.retain(|window| self.is_in_space(window));
        windows
    }

    /// Those of its handle that hold its bus address.
    pub fn holding(&self) -> Vec<KeptWindow> {
        let mut windows = self.parts.listed();
        windows.retain(|window| self.is_held_by(window));
        windows
    }

    /// Whether a kept window would be taken if the list did not end before it.
    pub fn holds_past_the_list(&self) -> bool {
        let past = self.parts.past_the_list();
        past.iter().any(|window| self.is_held_by(window) && has_entry(window))
    }

    fn is_in_space(&self, window: &KeptWindow) -> bool {
        window.io == (self.access.io != 0)
    }

    fn is_held_by(&self, window: &KeptWindow) -> bool {
        let handle = self.access.handle;
        self.is_in_space(window) && window.handle == handle && window.holds(self.bus)
    }

    /// The one that is taken.
    pub fn taken(&self) -> Option<KeptWindow> {
        self.holding().into_iter().find(has_entry)
    }

    /// Exponent, order, widths and zero of the taken window; none for a bad handle.
    pub fn entry(&self) -> Option<[u8; 4]> {
        let (records, _) = self.parts.records.as_chunks::<RECORD_LENGTH>();
        let window = self.taken()?;
        let record = records.get((window.handle as usize).checked_sub(1)?)?;
        record[ENTRIES + 4 * window.base as usize..].first_chunk().copied()
    }

    /// Whether the taken window offers the width.
    pub fn offers(&self) -> bool {
        self.entry().is_some_and(|[_, _, widths, _]| widths >> self.width & 1 == 1)
    }

    /// The first cell that the access reaches.
    pub fn first_cell(&self) -> Option<u64> {
        let moved = match self.entry()? {
            [_, 1, _, _] => [3, 2, 0][self.width],
            _ => 0,
        };
        self.cell(|distance| distance ^ moved)
    }

    /// Whether the four cells about the access all differ, so that no other byte order
    /// gives the same.
    pub fn tells_orders(&self) -> bool {
        let four = self.cell(|distance| distance & !3).and_then(|first| {
            let first = usize::try_from(first).ok()?;
            self.cells.get(first..)?.first_chunk::<4>()
        });
        four.is_some_and(|four| (1..4).all(|i| !four[..i].contains(&four[i])))
    }

    /// The cell at the bus address's distance into the taken window, moved.
    fn cell(&self, moved: impl Fn(u32) -> u32) -> Option<u64> {
        let window = self.taken()?;
        let slot = BASES * (window.handle as usize).checked_sub(1)? + window.base as usize;
        let distance = moved(self.bus - window.start);
        Some(u64::from(*self.parts.cell_offsets.get(slot)?) + u64::from(distance))
    }
}
