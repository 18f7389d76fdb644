//! A function's windows as descriptors show them, read as docs/DECISIONS.md reads an altered
//! board.

use crate::boards::{ENTRIES, FIRST_BASE};
use crate::parts::Parts;
use exports::REGISTERS;
use second::{KeptWindow, BASES, DESCRIPTOR_LENGTH, FUNCTIONS, RECORD_LENGTH};

pub struct ResourceCase<'a> {
    parts: &'a Parts,
    handle: u32,
    /// The place of the function, for a bad handle too where there is one.
    place: Option<usize>,
}

impl<'a> ResourceCase<'a> {
    pub fn new(parts: &'a Parts, handle: u32) -> Self {
        let place = (handle as usize).checked_sub(1).filter(|place| *place < FUNCTIONS);
        ResourceCase { parts, handle, place }
    }

    /// Exponent, order, widths and zero of a base register.
    pub fn entry(&self, base: usize) -> [u8; 4] {
        let entry = self.record().and_then(|record| record[ENTRIES + 4 * base..].first_chunk());
        entry.copied().unwrap_or([0; 4])
    }

    /// The base registers that have a window.
    pub fn bases(&self) -> Vec<usize> {
        (0..BASES).filter(|&base| (2..=16).contains(&self.entry(base)[0])).collect()
    }

    /// The length of all descriptors.
    pub fn needed(&self) -> usize {
        DESCRIPTOR_LENGTH * self.bases().len()
    }

    /// The base register as it stands.
    pub fn register(&self, base: usize) -> u32 {
        let registers = &self.parts.registers[REGISTERS * self.place.unwrap_or(0)..];
        let bytes = registers[FIRST_BASE + 4 * base..].first_chunk();
        bytes.map_or(0, |&bytes| u32::from_le_bytes(bytes))
    }

    /// The kept windows of a base register, those past the list apart.
    pub fn kept(&self, base: usize) -> [Vec<KeptWindow>; 2] {
        [self.parts.listed(), self.parts.past_the_list()].map(|mut windows| {
            windows.retain(|w| w.handle == self.handle && w.base as usize == base);
            windows
        })
    }

    /// Offset and dmaoffset.
    pub fn offsets(&self) -> [u32; 2] {
        let numbers = self.record().map_or(&[][..], |record| &record[ENTRIES + 4 * BASES..]);
        let (numbers, _) = numbers.as_chunks::<4>();
        [0, 1].map(|i| numbers.get(i).map_or(0, |&bytes| u32::from_be_bytes(bytes)))
    }

    fn record(&self) -> Option<&[u8; RECORD_LENGTH]> {
        let (records, _) = self.parts.records.as_chunks::<RECORD_LENGTH>();
        records.get(self.place?)
    }
}
