//! Calls of every edition number about the known ones, accepted and refused for each cause, on the
//! empty board, on B1 with an offset, and there with its memory windows contested.

use crate::access::{Access, DataAccess};
use crate::boards::OFFSET;
use crate::calls::Call;
use crate::pair::Pair;
use crate::tally::Tally;
use second::board_b1::{b1_records, image_of};
use second::{DRAFT_1_9, LATER_TEXT};
use std::collections::BTreeSet;

/// The cells of B1, and more.
const CELLS: usize = 2100;
const TOTAL: usize = 2064;
/// The offset of the first function.
const FIRST_OFFSET: u32 = 0xF000_0000;

pub fn sweep(tally: &mut Tally) -> Result<(), String> {
    let mut pair = Pair::new(tally.through, vec![0xEE; CELLS]);
    every_edition(&mut pair, "the empty board", tally)?;
    let mut records = b1_records();
    records[0][OFFSET].copy_from_slice(&FIRST_OFFSET.to_be_bytes());
    accepted(&mut pair, Call::Load { image: image_of(&records), lent: CELLS }, tally)?;
    every_edition(&mut pair, "B1 with an offset", tally)?;
    let access = Access { width: 4, handle: 2, register: 0x10 };
    accepted(&mut pair, Call::WriteConfig { access, value: 0x8000_0000 }, tally)?;
    every_edition(&mut pair, "B1 with its windows contested", tally)
}

fn accepted(pair: &mut Pair, call: Call, tally: &mut Tally) -> Result<(), String> {
    let answer = pair.call(&call, tally)?;
    assert_eq!(answer.number, 0, "the sweep's {call} is refused");
    Ok(())
}

fn every_edition(pair: &mut Pair, board: &str, tally: &mut Tally) -> Result<(), String> {
    for call_edition in editions() {
        for call in searches(call_edition).into_iter().chain(data_calls(call_edition)) {
            let outcome = pair.call(&call, tally);
            outcome.map_err(|difference| format!("{board}, {call}: {difference}"))?;
        }
    }
    Ok(())
}

/// The first ones, and the known ones with each bit changed.
fn editions() -> BTreeSet<u32> {
    let one_off = |known| (0..32).map(move |bit| known ^ 1 << bit);
    let known = [DRAFT_1_9, LATER_TEXT].into_iter().flat_map(one_off);
    (0..=0x103).chain(known).chain([u32::MAX]).collect()
}

fn searches(call_edition: u32) -> Vec<Call> {
    let ids = [0x0001_0F0F, 0x0F0F_0001, 0x0000_FFFF, 0xFFFF_0001, u32::MAX, 0x0001_0F0E];
    let classes = [0x0011_8000, 0xFF11_8000, 0x0111_8055, 0x0011_8055];
    let mut calls = Vec::new();
    for index in [0, 1, 2] {
        calls.extend(ids.map(|id| Call::FindPciDevice { id, index, call_edition }));
        calls.extend(classes.map(|class_code| Call::FindPciClasscode {
            class_code,
            index,
            call_edition,
        }));
    }
    calls
}

/// At the first function's last longword as each edition names it, at the second's first, and
/// refused for each cause, alone and with a bad handle.
fn data_calls(call_edition: u32) -> Vec<Call> {
    let at = |handle, address| {
        let (io, width, lent) = (0, 4, CELLS);
        DataAccess { io, width, handle, address, call_edition, lent }
    };
    let first = at(1, 0x8000_03FC);
    let second = at(2, 0x8000_0400);
    let io = DataAccess { io: 1, width: 1, address: 0x0000_0100, ..second };
    let refused = [
        DataAccess { lent: TOTAL - 1, ..second },
        DataAccess { address: 0x8000_0402, ..second },
        DataAccess { address: 0x9000_0000, ..second },
        DataAccess { io: 1, ..second },
        DataAccess { width: 2, ..io },
        DataAccess { width: 3, ..second },
        DataAccess { width: 0x104, lent: 0, ..second },
    ];
    let last = at(1, first.address.wrapping_add(FIRST_OFFSET));
    let bad_handles = refused.map(|access| DataAccess { handle: 9, ..access });
    let all = [first, last, second, io, at(0, 0), at(3, 0x8000_0400)];
    let of = |access| {
        let write = Call::WriteData { access, value: 0x0102_0304 ^ call_edition };
        [write, Call::ReadData(access), Call::FastReadData(access)]
    };
    all.into_iter().chain(refused).chain(bad_handles).flat_map(of).collect()
}
