//! Arguments of data calls and address conversions, chosen with regard to the kept list so
//! that most reach a window and the rest go just past one.

use crate::access::DataAccess;
use crate::arguments::{handle, lent, width};
use crate::calls::Call;
use crate::editions::call_edition;
use crate::model::Second;
use crate::parts::Parts;
use crate::random::Random;
use second::{KeptWindow, DRAFT_1_9, FUNCTIONS, LATER_TEXT, RECORD_LENGTH, WINDOWS};

/// The offset of a record.
const OFFSET: usize = 536;

/// A data call; most are writes, as they leave cells that reads can tell apart.
pub fn data(random: &mut Random, second: &Second) -> Call {
    let access = access(random, second);
    match random.below(5) {
        0 => Call::ReadData(access),
        1 => Call::FastReadData(access),
        _ => Call::WriteData { access, value: value(random) },
    }
}

/// A read in the other edition of what a data write names; none where it names an edition that
/// there is not, or is none.
pub fn read_back(random: &mut Random, parts: &Parts, call: &Call) -> Option<Call> {
    let Call::WriteData { access, .. } = *call else {
        return None;
    };
    let other = match access.call_edition {
        DRAFT_1_9 => LATER_TEXT,
        LATER_TEXT => DRAFT_1_9,
        _ => return None,
    };
    let access = access.said_in(other, offset(parts, access.handle));
    Some(match random.one_in(2) {
        true => Call::ReadData(access),
        false => Call::FastReadData(access),
    })
}

/// A conversion of an address: any, or one about where the sum or difference wraps.
pub fn conversion(random: &mut Random, second: &Second) -> Call {
    let handle = handle(random, &second.parts);
    let offset = offset(&second.parts, handle);
    let (any, near) = (random.long(), random.below(8) as u32);
    let bound = random.pick(&[offset, offset.wrapping_neg(), 0]);
    let address = match random.one_in(3) {
        true => any,
        false => bound.wrapping_add(near).wrapping_sub(4),
    };
    match random.one_in(2) {
        true => Call::BusToCpu { handle, address },
        false => Call::CpuToBus { handle, address },
    }
}

/// The offset of a handle's function; 0 where there is no place for it.
pub fn offset(parts: &Parts, handle: u32) -> u32 {
    let (records, _) = parts.records.as_chunks::<RECORD_LENGTH>();
    let record = records.get((handle as usize).wrapping_sub(1));
    let bytes = record.and_then(|record| record[OFFSET..].first_chunk());
    bytes.map_or(0, |&bytes| u32::from_be_bytes(bytes))
}

fn access(random: &mut Random, second: &Second) -> DataAccess {
    let (parts, whole) = (&second.parts, second.cells.len());
    let window = window(random, parts);
    let width = width(random);
    let bus = address(random, window);
    // Mostly an address that the width allows.
    let bus = match (width, random.one_in(8)) {
        (2, false) => bus & !1,
        (4, false) => bus & !3,
        _ => bus,
    };
    let handle = match random.below(8) {
        0 => handle(random, parts),
        _ => window.handle,
    };
    let total = parts.cell_offsets[WINDOWS] as usize;
    let call_edition = call_edition(random);
    DataAccess {
        io: io(random, window.io),
        width,
        handle,
        address: bus.wrapping_add(added(random, parts, handle, call_edition)),
        call_edition,
        lent: lent(random, whole, total),
    }
}

/// What is added to a bus address to name it: mostly what the edition asks for, else what the
/// other asks for, or what another function's offset makes of it.
fn added(random: &mut Random, parts: &Parts, handle: u32, call_edition: u32) -> u32 {
    let own = offset(parts, handle);
    let another = offset(parts, random.within(1..=FUNCTIONS) as u32);
    let (right, wrong) = match call_edition {
        DRAFT_1_9 => (own, 0),
        LATER_TEXT => (0, own),
        _ => (random.pick(&[0, own]), 0),
    };
    match random.below(10) {
        0 => wrong,
        1 => another,
        _ => right,
    }
}

/// A kept window, mostly one that is not contested; at times one that stands past the end
/// of the list, and any where none is kept.
fn window(random: &mut Random, parts: &Parts) -> KeptWindow {
    let windows = parts.listed();
    let clear: Vec<_> = windows.iter().copied().filter(|window| !window.contested).collect();
    let choices = match random.below(8) {
        0 => parts.past_the_list(),
        1 | 2 => Vec::new(),
        _ => clear,
    };
    if let Some(choices) = [choices, windows].into_iter().find(|choices| !choices.is_empty()) {
        return random.pick(&choices);
    }
    KeptWindow {
        io: random.one_in(2),
        start: random.long(),
        length: 1 << random.within(2..=16),
        handle: handle(random, parts),
        base: 0,
        contested: false,
    }
}

/// Inside a window or at one of its ends; at times just outside, or anywhere.
fn address(random: &mut Random, window: KeptWindow) -> u32 {
    let inside = random.below(window.length as usize) as u32;
    let end = window.start.wrapping_add(window.length);
    let any = random.long();
    match random.below(16) {
        0..=7 => window.start.wrapping_add(inside),
        8 | 9 => window.start,
        10 | 11 => end.wrapping_sub(1),
        12 => window.start.wrapping_sub(1),
        13 | 14 => end,
        _ => random.pick(&[0, u32::MAX, any]),
    }
}

/// Mostly the given space. I/O is every number but 0, and one that is cut could be 0.
fn io(random: &mut Random, io: bool) -> u32 {
    match io != random.one_in(12) {
        true => random.pick(&[1, 1, 2, 0x100, 0x1_0000, 0x8000_0000, u32::MAX]),
        false => 0,
    }
}

/// Mostly one whose four bytes differ, so that it shows where each of them goes.
fn value(random: &mut Random) -> u32 {
    let any = random.long();
    random.pick(&[any, any, any, any, 0, u32::MAX])
}
