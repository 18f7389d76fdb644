//! Writes to status on B1: every value to 06h and to 07h from every old one, under two masks each.

use crate::access::Access;
use crate::boards::MASKS;
use crate::calls::Call;
use crate::pair::Pair;
use crate::parts::Parts;
use crate::tally::Tally;
use exports::REGISTERS;
use second::board_b1::{b1_records, image_of};

/// By function: the masks of 06h and 07h.
const STATUS_MASKS: [[u8; 2]; 2] = [[0x30, 0xF9], [0xFF, 0xA5]];
/// Enough for B1.
const CELLS: usize = 4096;

pub fn sweep(tally: &mut Tally) -> Result<(), String> {
    let mut writes = Writes::new(tally)?;
    for old in 0..=255 {
        writes.values(old)?;
    }
    Ok(())
}

/// Both implementations with the board loaded, and the parts to begin with.
struct Writes<'a> {
    pair: Pair,
    fresh: Parts,
    tally: &'a mut Tally,
}

impl<'a> Writes<'a> {
    fn new(tally: &'a mut Tally) -> Result<Self, String> {
        let mut records = b1_records();
        for (record, masks) in records.iter_mut().zip(STATUS_MASKS) {
            record[MASKS + 0x06..=MASKS + 0x07].copy_from_slice(&masks);
            record[MASKS + 0x05] = 0xC3;
        }
        let mut pair = Pair::new(tally.through, vec![0; CELLS]);
        let load = Call::Load { image: image_of(&records), lent: CELLS };
        assert_eq!(pair.call(&load, tally)?.number, 0, "the board of the sweep is refused");
        Ok(Writes { fresh: pair.parts().clone(), pair, tally })
    }

    /// Every value to one register that holds the old one, while the other's two are exchanged:
    /// of handle 1 by bytes, of handle 2 by the word and by the longword, which also writes the
    /// command.
    fn values(&mut self, old: u8) -> Result<(), String> {
        for written in 0..=255 {
            let status = u32::from_le_bytes([written, old, 0, 0]);
            let command = u32::from_le_bytes([old ^ written, !written, 0, 0]);
            let standing = [old, written];
            self.write(standing, Access { width: 1, handle: 1, register: 0x06 }, written.into())?;
            self.write(standing, Access { width: 1, handle: 1, register: 0x07 }, old.into())?;
            self.write(standing, Access { width: 2, handle: 2, register: 0x06 }, status)?;
            let long = Access { width: 4, handle: 2, register: 0x04 };
            self.write(standing, long, status << 16 | command)?;
        }
        Ok(())
    }

    /// A write on the fresh board with these bytes in status.
    fn write(&mut self, standing: [u8; 2], access: Access, value: u32) -> Result<(), String> {
        let at = REGISTERS * (access.handle as usize - 1) + 0x06;
        self.fresh.registers[at..at + 2].copy_from_slice(&standing);
        self.pair.change_parts(|parts| *parts = self.fresh.clone());
        let call = Call::WriteConfig { access, value };
        let outcome = self.pair.call(&call, self.tally);
        outcome.map(drop).map_err(|difference| {
            let [low, high] = standing;
            format!("status {high:02x}{low:02x} of B1, {call}: {difference}")
        })
    }
}
