//! What a data call or a conversion met beside the number of its answer; of the editions that
//! data calls name, see edition_met.rs.

use crate::access::DataAccess;
use crate::boards::LAST_OFFSET;
use crate::calls::{Answer, Call};
use crate::data_arguments::offset;
use crate::data_case::{has_entry, DataCase};
use crate::editions::is_known;
use crate::met::Met;
use crate::parts::Parts;
use second::{KeptWindow, LATER_TEXT};

/// By width: 1, 2, 4.
macro_rules! by_width {
    ($what:literal $(, $order:literal)?) => {
        [
            concat!($what, " of a byte" $(, $order)?),
            concat!($what, " of a word" $(, $order)?),
            concat!($what, " of a longword" $(, $order)?),
        ]
    };
}

/// By order: 0, 1, 2, 15 and every other, which only an altered board has.
macro_rules! by_order {
    ($what:literal) => {
        [
            by_width!($what, " in order 0"),
            by_width!($what, " in order 1"),
            by_width!($what, " in order 2"),
            by_width!($what, " in order 15"),
            by_width!($what, " in another order"),
        ]
    };
}

const READS: [[&str; 3]; 5] = by_order!("a data read");
const FAST_READS: [[&str; 3]; 5] = by_order!("a fast data read");
const WRITES: [[&str; 3]; 5] = by_order!("a data write");
const NOT_OFFERED: [&str; 3] = by_width!("an access refused as not offered,");
const FILLERS: [&str; 3] = by_width!("a refused fast data read");
const INTO_NEIGHBOUR: [&str; 3] =
    by_width!("an access past its handle's window into a neighbour's,");

/// Read, fast read, written.
const OTHER_WIDTHS: [&str; 3] = [
    "a data read of a width that there is not",
    "a fast data read of a width that there is not",
    "a data write of a width that there is not",
];
const CONTESTED: &str = "an access refused as contested, its width offered";
const CONTESTED_NOT_OFFERED: &str = "an access refused as contested, its width not offered";
const OTHER_SPACE: &str = "an access that only the other space's window holds";
const NOT_ALIGNED: &str = "an access refused as not aligned, in a window";
const BAD_HANDLE: &str = "a data call with a bad handle and cells too short";
const TOO_SHORT: &str = "cells shorter than the total, with an address not aligned";
const ONE_LESS: &str = "cells one shorter than the total, the access else accepted";
const JUST_ENOUGH: &str = "cells as long as the total, the access accepted";
const IO_NUMBER: &str = "an accepted access of I/O by another number than 1";
const LAST_ADDRESS: &str = "an accepted access at FFFFFFFFh";
const PASSED_OVER: &str = "a kept number of base 6 or 7 passed over, a later one taken";
const PASSED_OVER_ALONE: &str = "a kept number of base 6 or 7 passed over, none taken";
const PAST_THE_LIST: &str = "a kept number past the end of the list that alone holds the address";
const FIRST_TAKEN: &str = "two kept numbers of an altered list that hold the address";
const CELLS_PAST: &str = "cells past the buffer on an altered board";
const CELLS_PARTLY_PAST: &str = "cells partly past the buffer on an altered board";
const NOT_OFFERED_PAST: &str = "an access refused as not offered, its cells past the buffer";
const WIDTHS_ABOVE: &str = "an accepted access, its widths with bits above bit 2";
const NO_EXPONENT: &str = "an accepted access, its record's k outside 2..16";

const TO_CPU: [&str; 2] = ["a CPU address below 2^32", "a CPU address wrapped past 2^32"];
const TO_BUS: [&str; 2] = ["a bus address from above the offset", "a bus address wrapped past 0"];
/// To CPU, to bus.
const GREATEST_OFFSET: [&str; 2] =
    ["a CPU address by offset FFFFFFFCh", "a bus address by offset FFFFFFFCh"];

/// All that a set of runs must have met of these calls.
pub fn all() -> impl Iterator<Item = &'static str> {
    let by_order = [READS, FAST_READS, WRITES].into_iter().flatten().flatten();
    let in_threes = [NOT_OFFERED, FILLERS, INTO_NEIGHBOUR, OTHER_WIDTHS].into_iter().flatten();
    let single = [
        CONTESTED,
        CONTESTED_NOT_OFFERED,
        OTHER_SPACE,
        NOT_ALIGNED,
        BAD_HANDLE,
        TOO_SHORT,
        ONE_LESS,
        JUST_ENOUGH,
        IO_NUMBER,
        LAST_ADDRESS,
        PASSED_OVER,
        PASSED_OVER_ALONE,
        PAST_THE_LIST,
        FIRST_TAKEN,
        CELLS_PAST,
        CELLS_PARTLY_PAST,
        NOT_OFFERED_PAST,
        WIDTHS_ABOVE,
        NO_EXPONENT,
    ];
    let conversions = [TO_CPU, TO_BUS, GREATEST_OFFSET].into_iter().flatten();
    by_order.chain(in_threes).chain(single).chain(conversions)
}

/// What a call met that left the parts as they were, and these cells.
pub fn met(call: &Call, answer: &Answer, parts: &Parts, cells: &[u8]) -> Met {
    let data = |access: DataAccess, names, other_width| {
        let board = parts.board();
        match DataCase::new(parts, &board, cells, access) {
            _ if !is_known(access.call_edition) => Met::new(),
            Some(case) => data(&case, names),
            None => vec![(other_width, true)],
        }
    };
    match call {
        Call::ReadData(access) => data(*access, &READS, OTHER_WIDTHS[0]),
        Call::WriteData { access, .. } => data(*access, &WRITES, OTHER_WIDTHS[2]),
        Call::FastReadData(access) => {
            let mut met = data(*access, &FAST_READS, OTHER_WIDTHS[1]);
            let fillers = FILLERS.into_iter().zip([1, 2, 4]);
            let refused = answer.number == 1 && is_known(access.call_edition);
            met.extend(fillers.map(|(what, width)| (what, refused && access.width == width)));
            met
        }
        Call::BusToCpu { handle, address } if answer.number == 0 => {
            let offset = offset(parts, *handle);
            let wraps = address.checked_add(offset).is_none();
            let greatest = (GREATEST_OFFSET[0], offset == LAST_OFFSET);
            vec![(TO_CPU[usize::from(wraps)], offset != 0), greatest]
        }
        Call::CpuToBus { handle, address } if answer.number == 0 => {
            let offset = offset(parts, *handle);
            let wraps = address.checked_sub(offset).is_none();
            let greatest = (GREATEST_OFFSET[1], offset == LAST_OFFSET);
            vec![(TO_BUS[usize::from(wraps)], offset != 0), greatest]
        }
        _ => Met::new(),
    }
}

/// What a data call of a good width met; an accepted one has its name by order and width.
fn data(case: &DataCase, names: &[[&'static str; 3]; 5]) -> Met {
    let mut met = match case.number {
        0 => accepted(case, names),
        -2 => vec![
            (NOT_OFFERED[case.width], true),
            (NOT_OFFERED_PAST, case.first_cell().is_some_and(|cell| cell >= case.lent())),
        ],
        -7 => too_short(case),
        -8 => nowhere(case),
        _ => vec![(BAD_HANDLE, case.lent() < case.total())],
    };
    met.extend(list_read(case));
    met
}

fn accepted(case: &DataCase, names: &[[&'static str; 3]; 5]) -> Met {
    let Some([k, order, widths, _]) = case.entry() else {
        return Met::new();
    };
    let order = [0, 1, 2, 15].iter().position(|&known| known == order).unwrap_or(4);
    vec![
        (names[order][case.width], case.tells_orders()),
        (JUST_ENOUGH, case.lent() == case.total() && case.access.lent < case.cells.len()),
        (IO_NUMBER, case.access.io > 1),
        (LAST_ADDRESS, case.bus == u32::MAX),
        (WIDTHS_ABOVE, widths > 7),
        (NO_EXPONENT, !(2..=16).contains(&k)),
    ]
}

/// What -7 met: cells shorter than the total or, on an altered board, past the buffer.
fn too_short(case: &DataCase) -> Met {
    let (lent, total) = (case.lent(), case.total());
    if lent < total {
        let whole = DataAccess { lent: case.cells.len(), ..case.access };
        return vec![
            (TOO_SHORT, !case.aligned()),
            (ONE_LESS, lent + 1 == total && case.number_of(whole) == 0),
        ];
    }
    let inside = case.first_cell().is_some_and(|cell| cell < lent);
    vec![(CELLS_PAST, !inside), (CELLS_PARTLY_PAST, inside)]
}

/// What -8 met: an address of another handle or space, or a check that comes before the
/// width's.
fn nowhere(case: &DataCase) -> Met {
    let other_space = DataAccess { io: u32::from(case.access.io == 0), ..case.access };
    let elsewhere = case.aligned() && case.taken().is_none();
    let contested = case.taken().is_some_and(|window| window.contested);
    let offered = case.offers();
    vec![
        (INTO_NEIGHBOUR[case.width], elsewhere && into_neighbour(case)),
        (OTHER_SPACE, elsewhere && case.number_of(other_space) == 0),
        (CONTESTED, case.aligned() && contested && offered),
        (CONTESTED_NOT_OFFERED, case.aligned() && contested && !offered),
        (NOT_ALIGNED, !case.aligned() && !contested && offered),
    ]
}

/// Whether the bus address is the first past a window of the handle, and the handle of another
/// window would be let in.
fn into_neighbour(case: &DataCase) -> bool {
    let (handle, bus) = (case.access.handle, case.bus);
    let windows = case.windows();
    let own_ends = |window: &KeptWindow| window.handle == handle && window.end() == bus.into();
    let by = DataAccess { address: bus, call_edition: LATER_TEXT, ..case.access };
    let lets_in = |window: &KeptWindow| {
        window.holds(bus) && case.number_of(DataAccess { handle: window.handle, ..by }) == 0
    };
    windows.iter().any(own_ends) && windows.iter().any(lets_in)
}

/// What was met of an altered list, where the call came so far as to read it.
fn list_read(case: &DataCase) -> Met {
    if case.number == -9 || case.lent() < case.total() || !case.aligned() {
        return Met::new();
    }
    let holding = case.holding();
    let known = holding.iter().filter(|window| has_entry(window)).count();
    let passed_over = holding.first().is_some_and(|window| !has_entry(window));
    vec![
        (PASSED_OVER, passed_over && case.number == 0),
        (PASSED_OVER_ALONE, passed_over && known == 0),
        (PAST_THE_LIST, known == 0 && case.holds_past_the_list()),
        (FIRST_TAKEN, known > 1 && case.number == 0),
    ]
}

#[cfg(test)]
mod tests {
    use super::*;
    use crate::model::Second;
    use second::board_b1::b1_image;

    const CELLS: usize = 4096;
    const FIRST: DataAccess = DataAccess {
        io: 0,
        width: 4,
        handle: 1,
        address: 0x8000_0000,
        call_edition: LATER_TEXT,
        lent: CELLS,
    };

    /// The byte order of B1's first window; its widths follow.
    const ENTRY_ORDER: usize = 513;

    fn met_by(second: &mut Second, call: Call) -> Vec<&'static str> {
        let answer = second.perform(&call);
        let met = met(&call, &answer, &second.parts, &second.cells);
        met.into_iter().filter(|(_, met)| *met).map(|(what, _)| what).collect()
    }

    fn read(second: &mut Second, access: DataAccess) -> Vec<&'static str> {
        met_by(second, Call::ReadData(access))
    }

    fn fresh_b1() -> Second {
        let mut second = Second::new(vec![0; CELLS]);
        assert_eq!(second.perform(&Call::Load { image: b1_image(), lent: CELLS }).number, 0);
        second
    }

    /// P9, P10 and what else B1 has.
    #[test]
    fn accesses() {
        let mut b1 = fresh_b1();
        let last = DataAccess { address: 0x8000_03FC, ..FIRST };
        assert!(read(&mut b1, last).is_empty());
        let write = Call::WriteData { access: last, value: 0x0102_0304 };
        assert_eq!(met_by(&mut b1, write), ["a data write of a longword in order 1"]);
        assert_eq!(read(&mut b1, last), ["a data read of a longword in order 1"]);
        let past = DataAccess { address: 0x8000_0400, ..FIRST };
        assert_eq!(read(&mut b1, past), [INTO_NEIGHBOUR[2]]);
        assert_eq!(read(&mut b1, DataAccess { io: 1, ..FIRST }), [OTHER_SPACE]);
        assert_eq!(read(&mut b1, DataAccess { address: 0x8000_0002, ..FIRST }), [NOT_ALIGNED]);
        assert_eq!(read(&mut b1, DataAccess { lent: 2064, ..FIRST }), [JUST_ENOUGH]);
        assert_eq!(read(&mut b1, DataAccess { lent: 2063, ..FIRST }), [ONE_LESS]);
        assert_eq!(read(&mut b1, DataAccess { lent: 9, address: 1, ..FIRST }), [TOO_SHORT]);
        assert_eq!(read(&mut b1, DataAccess { lent: 9, handle: 3, ..FIRST }), [BAD_HANDLE]);
        let io = DataAccess { io: 2, width: 1, handle: 2, address: 0x100, ..FIRST };
        assert_eq!(read(&mut b1, io), [IO_NUMBER]);
        assert_eq!(read(&mut b1, DataAccess { width: 2, ..io }), [NOT_OFFERED[1]]);
        assert_eq!(read(&mut b1, DataAccess { width: 3, ..io }), [OTHER_WIDTHS[0]]);
        let fast = Call::FastReadData(DataAccess { width: 2, ..io });
        assert_eq!(met_by(&mut b1, fast), [NOT_OFFERED[1], FILLERS[1]]);
    }

    #[test]
    fn altered_boards() {
        let mut b1 = fresh_b1();
        b1.cells[..4].copy_from_slice(&[1, 2, 3, 4]);
        b1.parts.records[ENTRY_ORDER] = 0x11;
        assert_eq!(read(&mut b1, FIRST), ["a data read of a longword in another order"]);
        b1.parts.cell_offsets[0] = CELLS as u32 - 2;
        assert_eq!(read(&mut b1, FIRST), [CELLS_PARTLY_PAST]);
        b1.parts.cell_offsets[0] = u32::MAX;
        assert_eq!(read(&mut b1, FIRST), [CELLS_PAST]);
        b1.parts.records[ENTRY_ORDER + 1] = 0xF8;
        assert_eq!(read(&mut b1, FIRST), [NOT_OFFERED[2], NOT_OFFERED_PAST]);
        b1.parts.windows[0] |= 1;
        assert_eq!(read(&mut b1, FIRST), [CONTESTED_NOT_OFFERED]);
        b1.parts.records[ENTRY_ORDER + 1] = 0xF4;
        assert_eq!(read(&mut b1, FIRST), [CONTESTED]);
        b1.parts.windows[0] ^= 1;
        b1.parts.cell_offsets[0] = 8;
        b1.parts.windows[1] = b1.parts.windows[0];
        assert_eq!(read(&mut b1, FIRST), [WIDTHS_ABOVE, FIRST_TAKEN]);
        b1.parts.records[ENTRY_ORDER - 1] = 0;
        assert_eq!(read(&mut b1, FIRST), [WIDTHS_ABOVE, NO_EXPONENT, FIRST_TAKEN]);
        b1.parts.records[ENTRY_ORDER - 1] = 10;
        b1.parts.windows[0] |= 6 << 18;
        assert_eq!(read(&mut b1, FIRST), [WIDTHS_ABOVE, PASSED_OVER]);
        b1.parts.windows[1] |= 7 << 18;
        assert_eq!(read(&mut b1, FIRST), [PASSED_OVER_ALONE]);
        b1.parts.windows[0] &= !(7 << 18);
        b1.parts.windows.swap(0, 95);
        assert_eq!(read(&mut b1, FIRST), [PAST_THE_LIST]);
    }

    #[test]
    fn conversions() {
        let mut b1 = fresh_b1();
        let to_cpu = |address| Call::BusToCpu { handle: 1, address };
        let to_bus = |address| Call::CpuToBus { handle: 1, address };
        assert!(met_by(&mut b1, to_cpu(u32::MAX)).is_empty());
        b1.parts.records[536] = 0x80;
        assert_eq!(met_by(&mut b1, to_cpu(0x7FFF_FFFF)), [TO_CPU[0]]);
        assert_eq!(met_by(&mut b1, to_cpu(0x8000_0000)), [TO_CPU[1]]);
        assert_eq!(met_by(&mut b1, to_bus(0x8000_0000)), [TO_BUS[0]]);
        assert_eq!(met_by(&mut b1, to_bus(0x7FFF_FFFF)), [TO_BUS[1]]);
        b1.parts.records[536..540].copy_from_slice(&LAST_OFFSET.to_be_bytes());
        assert_eq!(met_by(&mut b1, to_cpu(3)), [TO_CPU[0], GREATEST_OFFSET[0]]);
        assert_eq!(met_by(&mut b1, to_bus(0xFFFF_FFFC)), [TO_BUS[0], GREATEST_OFFSET[1]]);
    }
}
