//! Configuration calls and searches on two boards: every register at every width, and
//! every ID and class one bit off those of the board, in both editions.

use crate::access::Access;
use crate::boards::{clear_base, ENTRIES, FIXED, MASKS};
use crate::calls::Call;
use crate::pair::Pair;
use crate::parts::Parts;
use crate::random::Random;
use crate::tally::Tally;
use exports::REGISTERS;
use second::board_b1::{b1_image, image_of, plain_record, set_window, Shape};
use second::{Record, BASES, DRAFT_1_9, LATER_TEXT};

/// The widths that there are, and some that are refused.
const WIDTHS: [u32; 6] = [1, 2, 4, 0, 3, 5];
/// Values to write in this order, P11's start among them. All ones leave no status bit to clear,
/// so a mixed one stands before them.
const VALUES: [u32; 4] = [0, 0xA5C3_965A, u32::MAX, 0x8000_0000];
/// Enough for both boards.
const CELLS: usize = 4096;

pub fn sweep(tally: &mut Tally) -> Result<(), String> {
    for (name, image) in [("B1", b1_image()), ("mixed board", image_of(&mixed_records()))] {
        let mut board = Loaded::new(image, tally)?;
        let told = |difference| format!("{name}, {difference}");
        board.registers().map_err(told)?;
        board.searches().map_err(told)?;
        board.alter_list();
        board.registers().map_err(|difference| format!("{name}, list altered, {difference}"))?;
    }
    Ok(())
}

/// Both implementations with a board loaded, and the parts to begin with.
struct Loaded<'a> {
    pair: Pair,
    fresh: Parts,
    tally: &'a mut Tally,
}

impl<'a> Loaded<'a> {
    fn new(image: Vec<u8>, tally: &'a mut Tally) -> Result<Self, String> {
        let mut pair = Pair::new(tally.through, vec![0; CELLS]);
        let answer = pair.call(&Call::Load { image, lent: CELLS }, tally)?;
        assert_eq!(answer.number, 0, "a board of the sweep is refused");
        Ok(Loaded { fresh: pair.parts().clone(), pair, tally })
    }

    fn call(&mut self, call: Call) -> Result<(), String> {
        let outcome = self.pair.call(&call, self.tally);
        outcome.map(drop).map_err(|difference| format!("{call}: {difference}"))
    }

    fn registers(&mut self) -> Result<(), String> {
        for handle in 0..=3 {
            for register in 0..=255 {
                for width in WIDTHS {
                    self.register(Access { width, handle, register })?;
                }
            }
        }
        Ok(())
    }

    /// Makes the list one that no call keeps, so that each write shows whether it works
    /// it out afresh.
    fn alter_list(&mut self) {
        self.fresh.windows = self.fresh.windows.map(|number| !number);
        self.pair.change_parts(|parts| *parts = self.fresh.clone());
    }

    /// Reads, then writes all values in a row, and puts the fresh parts back.
    fn register(&mut self, access: Access) -> Result<(), String> {
        self.call(Call::ReadConfig(access))?;
        self.call(Call::FastReadConfig(access))?;
        for value in VALUES {
            self.call(Call::WriteConfig { access, value })?;
        }
        self.pair.change_parts(|parts| *parts = self.fresh.clone());
        Ok(())
    }

    fn searches(&mut self) -> Result<(), String> {
        for place in 0..=2 {
            let header = &self.fresh.registers[REGISTERS * place..];
            let id = u32::from_le_bytes([header[0], header[1], header[2], header[3]]);
            let class = u32::from_le_bytes([header[0x09], header[0x0A], header[0x0B], 0]);
            for index in [0, 1, 2, 3, 65_536, 65_537, u32::MAX] {
                for id in [id, id | 0xFFFF] {
                    self.devices(id, index, LATER_TEXT)?;
                    self.devices(id, index, DRAFT_1_9)?;
                    self.devices(id.rotate_left(16), index, DRAFT_1_9)?;
                }
            }
            for index in 0..=3 {
                self.classes(class, index, LATER_TEXT)?;
                self.classes(class, index, DRAFT_1_9)?;
            }
        }
        Ok(())
    }

    /// The ID as it is and with each bit changed.
    fn devices(&mut self, id: u32, index: u32, call_edition: u32) -> Result<(), String> {
        self.call(Call::FindPciDevice { id, index, call_edition })?;
        for bit in 0..32 {
            let id = id ^ 1 << bit;
            self.call(Call::FindPciDevice { id, index, call_edition })?;
        }
        Ok(())
    }

    /// The class as it is and with each bit changed, under each set of bits 24 to 31.
    fn classes(&mut self, class: u32, index: u32, call_edition: u32) -> Result<(), String> {
        for bits in 0..=255 {
            let class_code = class | bits << 24;
            self.call(Call::FindPciClasscode { class_code, index, call_edition })?;
            for bit in 0..24 {
                let class_code = class_code ^ 1 << bit;
                self.call(Call::FindPciClasscode { class_code, index, call_edition })?;
            }
        }
        Ok(())
    }
}

/// Three functions with mixed masks. Each has one more command bit that no write changes,
/// status bits set under the mask and outside it, and windows that meet another's or end at
/// 2^32; classes differ in one byte, and one device is FFFFh.
fn mixed_records() -> [Record; 3] {
    let mut random = Random::new(1);
    let mut records = [plain_record(); 3];
    for (record, command_mask) in records.iter_mut().zip([3, 1, 2]) {
        random.fill(&mut record[0x40..REGISTERS]);
        random.fill(&mut record[MASKS..ENTRIES]);
        for register in FIXED {
            record[MASKS + register] = 0;
        }
        (0..BASES).for_each(|base| clear_base(record, base));
        record[MASKS + 0x04] = command_mask;
        record[0x05..=0x08].copy_from_slice(&[0xF5, 0xB7, 0xED, 0x5F]);
        record[MASKS + 0x05..=MASKS + 0x07].copy_from_slice(&[0x35, 0x66, 0x99]);
    }
    records[1][0x09] = 0x01;
    records[2][0x0B] = 0x10;
    records[2][0x02..0x04].fill(0xFF);
    let windows = [
        (0, 0, 0x8000_0000, 10),
        (0, 3, 0x8000_0400, 8),
        (0, 5, 0x0000_0101, 4),
        (1, 0, 0x8000_0200, 9),
        (1, 1, 0x0000_0109, 3),
        (2, 2, 0xFFFF_FF08, 8),
        (2, 4, 0xFFFF_FFFD, 2),
    ];
    for (place, base, register, k) in windows {
        set_window(&mut records[place], base, Shape { register, k, order: 0, widths: 7 });
    }
    records
}
