//! The board image: its trailer, the load refusals and the writer's layout.

use crate::board::FUNCTIONS;
use crate::bytes::{big, put_big};
use crate::record::{cells_needed, keeps_rules, Record, RECORD_LENGTH};

pub const TRAILER_LENGTH: usize = 12;
const LONGEST_IMAGE: usize = 65_536;
const MOST_CELLS: u32 = 65_536;
const EDITION: u32 = 1;

/// The answer of an image check or load: 0 is fine, 1 to 8 are refusals.
#[derive(Clone, Copy, Debug, Default, PartialEq, Eq)]
pub struct Verdict {
    pub number: u32,
    /// The first record that breaks a rule, with number 6; else 0.
    pub place: u32,
}

/// Whether an image could be loaded with so many lent cells.
pub fn check_image(image: &[u8], cell_room: usize) -> Verdict {
    match loadable_records(image, cell_room) {
        Ok(_) => Verdict::default(),
        Err(verdict) => verdict,
    }
}

/// The records of an image that passes all the load's checks.
pub fn loadable_records(image: &[u8], cell_room: usize) -> Result<&[Record], Verdict> {
    let refused = |number| Verdict { number, place: 0 };
    let records = summed_records(image).map_err(refused)?;
    if let Some(bad) = records.iter().position(|record| !keeps_rules(record)) {
        return Err(Verdict { number: 6, place: bad as u32 });
    }
    let total: u32 = records.iter().map(cells_needed).sum();
    if total > MOST_CELLS {
        return Err(refused(7));
    }
    if cell_room < total as usize {
        return Err(refused(8));
    }
    Ok(records)
}

/// The records that the trailer points at, after refusals 1 to 5.
fn summed_records(image: &[u8]) -> Result<&[Record], u32> {
    if image.len() > LONGEST_IMAGE {
        return Err(1);
    }
    let (before, trailer) = image.split_last_chunk::<TRAILER_LENGTH>().ok_or(1u32)?;
    if big(trailer, 6, 2) != EDITION {
        return Err(2);
    }
    let count = big(trailer, 4, 2) as usize;
    if count == 0 || count > FUNCTIONS {
        return Err(3);
    }
    let distance = big(trailer, 0, 4) as usize;
    if distance != image_length(count) {
        return Err(4);
    }
    // Notes before the first record play no part, not in the sum either.
    let notes = image.len().checked_sub(distance).ok_or(4u32)?;
    let (records, _) = before.get(notes..).unwrap_or(&[]).as_chunks();
    if big(trailer, 8, 4) != sum_of(records) {
        return Err(5);
    }
    Ok(records)
}

fn sum_of(records: &[Record]) -> u32 {
    records.as_flattened().iter().map(|&b| u32::from(b)).sum()
}

/// The length of an image without notes.
pub fn image_length(count: usize) -> usize {
    RECORD_LENGTH * count + TRAILER_LENGTH
}

/// The trailer that belongs to at most 16 records.
pub fn trailer_of(records: &[Record]) -> [u8; TRAILER_LENGTH] {
    let mut trailer = [0; TRAILER_LENGTH];
    put_big(&mut trailer[0..4], image_length(records.len()) as u32);
    put_big(&mut trailer[4..6], records.len() as u32);
    put_big(&mut trailer[6..8], EDITION);
    put_big(&mut trailer[8..12], sum_of(records));
    trailer
}
