//! Descriptors of small boards in buffers of every length and with every byte of a window's
//! entry, and steps at every position.

use crate::access::Access;
use crate::boards::ENTRIES;
use crate::calls::Call;
use crate::pair::Pair;
use crate::tally::Tally;
use second::board_b1::{b1_image, image_of, plain_record, set_window, Shape};
use second::{Record, BASES, RECORD_LENGTH};

/// Enough for both boards.
const CELLS: usize = 4096;

pub fn sweep(tally: &mut Tally) -> Result<(), String> {
    for image in [b1_image(), image_of(&six_windows())] {
        let mut board = Loaded::new(image, tally)?;
        board.lengths()?;
        // P11 makes two windows contested; then those of handle 2 are closed.
        board.write(0x10, 0x8000_0000)?;
        board.lengths()?;
        board.write(0x04, 0)?;
        board.lengths()?;
        board.entries()?;
    }
    steps(tally)
}

/// Both implementations with a board loaded.
struct Loaded<'a> {
    pair: Pair,
    tally: &'a mut Tally,
}

impl<'a> Loaded<'a> {
    fn new(image: Vec<u8>, tally: &'a mut Tally) -> Result<Self, String> {
        let mut pair = Pair::new(tally.through, vec![0; CELLS]);
        let answer = pair.call(&Call::Load { image, lent: CELLS }, tally)?;
        assert_eq!(answer.number, 0, "a board of the sweep is refused");
        Ok(Loaded { pair, tally })
    }

    fn call(&mut self, call: Call) -> Result<(), String> {
        let outcome = self.pair.call(&call, self.tally);
        outcome.map(drop).map_err(|difference| format!("resource sweep, {call}: {difference}"))
    }

    /// A longword to a register of handle 2.
    fn write(&mut self, register: u8, value: u32) -> Result<(), String> {
        let access = Access { width: 4, handle: 2, register };
        self.call(Call::WriteConfig { access, value })
    }

    fn lengths(&mut self) -> Result<(), String> {
        for handle in 0..=3 {
            for length in 0..=130 {
                self.call(Call::GetResource { handle, out: vec![0x5A; length] })?;
            }
        }
        Ok(())
    }

    /// Every value of every byte of the entries of handle 1.
    fn entries(&mut self) -> Result<(), String> {
        for at in ENTRIES..ENTRIES + 4 * BASES {
            let before = self.pair.parts().records[at];
            for value in 0..=255 {
                self.pair.change_parts(|parts| parts.records[at] = value);
                self.call(Call::GetResource { handle: 1, out: vec![0x5A; 125] })?;
            }
            self.pair.change_parts(|parts| parts.records[at] = before);
        }
        Ok(())
    }
}

/// Steps in bytes about as long as one, two and three descriptors, with every next field
/// about 20, with and without the last mark.
fn steps(tally: &mut Tally) -> Result<(), String> {
    let mut pair = Pair::new(tally.through, Vec::new());
    for length in [0, 1, 19, 20, 21, 39, 40, 41, 59, 60, 61] {
        for next in (0..=42).chain([255, 256, 0x0114, 0x7FFF, 0x8000, 0xFFFF]) {
            for flags in [0x7FFF, 0x8000] {
                positions(&mut pair, tally, length, [next, flags])?;
            }
        }
    }
    Ok(())
}

/// A step at every position, with these next field and flags there, and far past the end.
fn positions(
    pair: &mut Pair,
    tally: &mut Tally,
    length: usize,
    [next, flags]: [u16; 2],
) -> Result<(), String> {
    let fields = [next.to_be_bytes(), flags.to_be_bytes()].concat();
    for at in (0..=length + 21).chain([1 << 32, 1 << 63, usize::MAX - 19, usize::MAX]) {
        let mut bytes: Vec<_> = (0..length as u8).map(|i| i ^ 0xA5).collect();
        let there = bytes.iter_mut().skip(at).zip(&fields);
        there.for_each(|(byte, &field)| *byte = field);
        let call = Call::DescriptorStep { bytes, at };
        let outcome = pair.call(&call, tally);
        outcome.map_err(|difference| format!("{call}, next {next}: {difference}"))?;
    }
    Ok(())
}

/// Two functions with six windows each, of every order and both spaces; those of base 0
/// stand as in B1.
fn six_windows() -> [Record; 2] {
    let mut records = [plain_record(); 2];
    for (place, record) in records.iter_mut().enumerate() {
        record[RECORD_LENGTH - 8..].copy_from_slice(&[0x10, 0x20, 0x30, 0x44, 5, 6, 7, 8]);
        for (base, order) in [1, 0, 2, 15, 2, 1].into_iter().enumerate() {
            let (io, start) = (base % 2, 0x8000_0000 + 0x1000 * base + 0x400 * place);
            let shape =
                Shape { register: (start | io) as u32, k: 8, order, widths: 1 + base as u8 };
            set_window(record, base, shape);
        }
    }
    records
}
