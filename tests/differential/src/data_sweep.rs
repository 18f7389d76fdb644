//! Data calls on two boards: every address of every window and those beside it, at every
//! width, through every handle and in both spaces; with offsets in both editions.

use crate::access::DataAccess;
use crate::boards::{ENTRIES, LAST_OFFSET, OFFSET, OFFSET_LOW};
use crate::calls::Call;
use crate::data_arguments::offset;
use crate::pair::Pair;
use crate::tally::Tally;
use second::board_b1::{b1_image, image_of, plain_record, set_window, Shape};
use second::{Record, BASES, DRAFT_1_9, LATER_TEXT, RECORD_LENGTH};
use std::collections::BTreeSet;

/// The widths that there are, and one that is refused.
const WIDTHS: [u32; 4] = [1, 2, 4, 3];
/// Enough for both boards, and more.
const CELLS: usize = 2100;
const LATER: &[u32] = &[LATER_TEXT];
const BOTH: &[u32] = &[LATER_TEXT, DRAFT_1_9];

pub fn sweep(tally: &mut Tally) -> Result<(), String> {
    for (name, image) in [("B1", b1_image()), ("board of orders", image_of(&order_records()))] {
        let mut board = Loaded::new(image, tally)?;
        board.addresses(LATER).map_err(|difference| format!("{name}, {difference}"))?;
    }
    let mut board = Loaded::new(image_of(&order_records()), tally)?;
    board.alter_orders();
    board
        .addresses(LATER)
        .map_err(|difference| format!("board of altered orders, {difference}"))?;
    let mut board = Loaded::new(image_of(&offset_records()), tally)?;
    board.addresses(BOTH).map_err(|difference| format!("board of offsets, {difference}"))?;
    board.alter_offsets();
    board.addresses(BOTH).map_err(|difference| format!("board of altered offsets, {difference}"))
}

/// Both implementations with a board loaded.
struct Loaded<'a> {
    pair: Pair,
    /// The value that is written next: no two are equal.
    value: u32,
    tally: &'a mut Tally,
}

impl<'a> Loaded<'a> {
    fn new(image: Vec<u8>, tally: &'a mut Tally) -> Result<Self, String> {
        let mut pair = Pair::new(tally.through, vec![0xEE; CELLS]);
        let answer = pair.call(&Call::Load { image, lent: CELLS }, tally)?;
        assert_eq!(answer.number, 0, "a board of the sweep is refused");
        Ok(Loaded { pair, value: 0x0123_4567, tally })
    }

    /// Gives every base register an order that no image has, near to its own.
    fn alter_orders(&mut self) {
        self.pair.change_parts(|parts| {
            for record in parts.records.chunks_mut(RECORD_LENGTH) {
                (0..BASES).for_each(|base| record[ENTRIES + 4 * base + 1] ^= 0x10);
            }
        });
    }

    /// Gives every function an offset that is no multiple of 4, or of 2.
    fn alter_offsets(&mut self) {
        self.pair.change_parts(|parts| {
            for (record, bits) in parts.records.chunks_mut(RECORD_LENGTH).zip(1..=3) {
                record[OFFSET_LOW] ^= bits;
            }
        });
    }

    /// The bus addresses from one before each window to one past it.
    fn addresses(&mut self, editions: &[u32]) -> Result<(), String> {
        let mut addresses = BTreeSet::new();
        for window in self.pair.parts().listed() {
            let first = window.start.wrapping_sub(1);
            addresses.extend((0..window.length + 2).map(|next| first.wrapping_add(next)));
        }
        for address in addresses {
            for width in WIDTHS {
                for &call_edition in editions {
                    self.handles_and_spaces(address, width, call_edition)?;
                }
            }
        }
        Ok(())
    }

    /// Every handle of the board, and the bad ones before and after, at a bus address as the
    /// edition names it.
    fn handles_and_spaces(
        &mut self,
        address: u32,
        width: u32,
        call_edition: u32,
    ) -> Result<(), String> {
        for handle in 0..=self.pair.parts().functions() as u32 + 1 {
            let offset = offset(self.pair.parts(), handle);
            for io in [0, 1] {
                let (lent, later) = (CELLS, LATER_TEXT);
                let bus = DataAccess { io, width, handle, address, call_edition: later, lent };
                self.access(bus.said_in(call_edition, offset))?;
            }
        }
        Ok(())
    }

    /// Writes a value, reads it back and fast reads it.
    fn access(&mut self, access: DataAccess) -> Result<(), String> {
        self.value = self.value.wrapping_add(0x9E37_79B9);
        let calls = [
            Call::WriteData { access, value: self.value },
            Call::ReadData(access),
            Call::FastReadData(access),
        ];
        for call in calls {
            let outcome = self.pair.call(&call, self.tally);
            outcome.map_err(|difference| format!("{call}: {difference}"))?;
        }
        Ok(())
    }
}

/// Three functions with windows of every byte order in both spaces, side by side at the
/// same addresses; two meet, some offer one width alone, one ends at 2^32.
fn order_records() -> [Record; 3] {
    let windows = [
        (0, 0, 0x8000_0000, 4, 0, 7),
        (1, 1, 0x8000_0010, 4, 1, 7),
        (2, 2, 0x8000_0020, 5, 2, 7),
        (0, 3, 0x8000_0040, 6, 15, 7),
        (1, 5, 0x8000_0080, 4, 1, 1),
        (1, 4, 0x8000_0090, 4, 2, 6),
        (2, 3, 0x8000_0100, 6, 1, 7),
        (0, 4, 0x8000_0130, 4, 2, 2),
        (2, 5, 0xFFFF_FFF8, 4, 1, 7),
        (0, 1, 0x8000_0001, 3, 1, 7),
        (2, 0, 0x8000_0009, 2, 2, 7),
        (1, 0, 0x8000_000D, 2, 0, 5),
        (0, 5, 0x8000_0011, 4, 15, 7),
        (2, 1, 0x8000_0021, 2, 1, 3),
    ];
    let mut records = [plain_record(); 3];
    for (place, base, register, k, order, widths) in windows {
        set_window(&mut records[place], base, Shape { register, k, order, widths });
    }
    records
}

/// The same with offsets by which every CPU address wraps, none does but at the end, or all lie a
/// little lower: there bus addresses of one window are CPU addresses of others.
fn offset_records() -> [Record; 3] {
    let mut records = order_records();
    for (record, offset) in records.iter_mut().zip([0x8000_0000, 0x10, LAST_OFFSET]) {
        record[OFFSET].copy_from_slice(&offset.to_be_bytes());
    }
    records
}
