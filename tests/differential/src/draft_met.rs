//! What a search or data call of draft 1.9 met beside its number.

use crate::access::DataAccess;
use crate::calls::Call;
use crate::data_arguments::offset;
use crate::data_case::DataCase;
use crate::edition_met::Asked;
use crate::met::Met;
use second::LATER_TEXT;

const BAD_VENDOR: &str = "vendor FFFFh in a search of draft 1.9";
const BAD_VENDOR_EMPTY: &str = "vendor FFFFh in a search of draft 1.9 on the empty board";
const BAD_VENDOR_PAST: &str = "vendor FFFFh in a search of draft 1.9 past the last function";
const BAD_VENDOR_LATER: &str =
    "vendor FFFFh in a search of draft 1.9 that the later text would find";
const DEVICES_PASSED: &str = "a device search of draft 1.9 that passes over matches";
const DEVICE_FFFF: &str = "device FFFFh by which the later text would find another function";
const DRAFT_ID: &str = "an ID that draft 1.9 finds and the later text would not";
const LATER_ID: &str = "an ID that the later text would find and draft 1.9 does not";
const LATER_VENDOR: &str = "FFFFh in bits 15..0 by which the later text would find a function";
const CLASSES_PASSED: &str = "a class search of draft 1.9 that passes over matches";
const CLASS_BITS: &str = "class bits 31..24 in a search of draft 1.9 that finds a function";
/// By bit, from 24 on.
const LATER_CLASS: [&str; 3] = [
    "a programming interface that the later text would ignore, compared",
    "a sub class that the later text would ignore, compared",
    "a base class that the later text would ignore, compared",
];

/// By data call: read, fast read, write.
macro_rules! by_data_call {
    ($what:literal) => {
        [
            concat!("a data read of draft 1.9 ", $what),
            concat!("a fast data read of draft 1.9 ", $what),
            concat!("a data write of draft 1.9 ", $what),
        ]
    };
}

/// With an offset that is not 0, by width: 1, 2, 4.
const BY_WIDTH: [[&str; 3]; 3] = [
    by_data_call!("of a byte by an offset"),
    by_data_call!("of a word by an offset"),
    by_data_call!("of a longword by an offset"),
];
const IN_IO: [&str; 3] = by_data_call!("in I/O by an offset");
const WRAPPED: [&str; 3] = by_data_call!("whose bus address wraps past 0");
const LATER_REFUSES: [&str; 3] = by_data_call!("accepted that the later text would refuse");
const LATER_ACCEPTS: [&str; 3] = by_data_call!("refused that the later text would accept");
const OTHER_CELLS: [&str; 3] = by_data_call!("that the later text would take elsewhere");
const OTHER_OFFSET: [&str; 3] =
    by_data_call!("refused that another function's offset would let in");
const CPU_NOT_ALIGNED: [&str; 3] = by_data_call!("accepted, its CPU address not aligned");
const BUS_NOT_ALIGNED: [&str; 3] = by_data_call!("refused for its bus address alone not aligned");

/// All that a set of runs must have met of draft 1.9.
pub fn all() -> impl Iterator<Item = &'static str> {
    let searches = [
        BAD_VENDOR,
        BAD_VENDOR_EMPTY,
        BAD_VENDOR_PAST,
        BAD_VENDOR_LATER,
        DEVICES_PASSED,
        DEVICE_FFFF,
        DRAFT_ID,
        LATER_ID,
        LATER_VENDOR,
        CLASSES_PASSED,
        CLASS_BITS,
    ];
    let data = [
        IN_IO,
        WRAPPED,
        LATER_REFUSES,
        LATER_ACCEPTS,
        OTHER_CELLS,
        OTHER_OFFSET,
        CPU_NOT_ALIGNED,
        BUS_NOT_ALIGNED,
    ];
    searches.into_iter().chain(LATER_CLASS).chain(data.into_iter().chain(BY_WIDTH).flatten())
}

/// What a call met that draft 1.9 gave this number.
pub fn met(asked: &Asked, number: i64) -> Met {
    match *asked.call {
        Call::FindPciDevice { id, index, .. } => device(asked, id, index, number),
        Call::FindPciClasscode { class_code, index, .. } => class(asked, class_code, index, number),
        _ => {
            let case = asked.access().and_then(|access| asked.case(access));
            case.map_or(Met::new(), |case| data(asked, &case, asked.kind() - 2))
        }
    }
}

fn device(asked: &Asked, id: u32, index: u32, number: i64) -> Met {
    let functions = asked.parts.functions();
    let later = asked.number_in(LATER_TEXT);
    let low_half = id & 0xFFFF == 0xFFFF;
    match number {
        1.. => vec![
            (DEVICES_PASSED, index > 0),
            (DEVICE_FFFF, low_half && later != number),
            (DRAFT_ID, later == -4),
        ],
        -3 => vec![
            (BAD_VENDOR, functions > 0),
            (BAD_VENDOR_EMPTY, functions == 0),
            (BAD_VENDOR_PAST, functions > 0 && index as usize >= functions),
            (BAD_VENDOR_LATER, later > 0),
        ],
        _ => vec![(LATER_ID, later > 0 && !low_half), (LATER_VENDOR, later > 0 && low_half)],
    }
}

/// The later text finds a class by a bit that makes a byte ignored where it does not without.
fn class(asked: &Asked, class_code: u32, index: u32, number: i64) -> Met {
    if number > 0 {
        return vec![(CLASSES_PASSED, index > 0), (CLASS_BITS, class_code >> 24 != 0)];
    }
    let later = |class_code| asked.board.find_pci_classcode(class_code, index, LATER_TEXT);
    let found_by = |bit: u32| later(class_code) > 0 && later(class_code & !(1 << bit)) < 0;
    let bits = LATER_CLASS.into_iter().zip(24..);
    bits.map(|(what, bit)| (what, found_by(bit))).collect()
}

fn data(asked: &Asked, case: &DataCase, kind: usize) -> Met {
    let DataAccess { io, width, handle, address, .. } = case.access;
    let offset = offset(asked.parts, handle);
    let later = asked.number_in(LATER_TEXT);
    match case.number {
        0 => vec![
            (BY_WIDTH[case.width][kind], offset != 0),
            (IN_IO[kind], offset != 0 && io != 0),
            (WRAPPED[kind], address < offset),
            (LATER_REFUSES[kind], later != 0),
            (OTHER_CELLS[kind], later == 0 && offset != 0),
            (CPU_NOT_ALIGNED[kind], !address.is_multiple_of(width)),
        ],
        -8 => vec![
            (LATER_ACCEPTS[kind], later == 0),
            (OTHER_OFFSET[kind], offset_lets_in(asked, case)),
            (BUS_NOT_ALIGNED[kind], !case.aligned() && address.is_multiple_of(width)),
        ],
        _ => Met::new(),
    }
}

/// Whether the access would be accepted by the offset of another function.
fn offset_lets_in(asked: &Asked, case: &DataCase) -> bool {
    let DataAccess { handle, address, .. } = case.access;
    let others = (1..=asked.parts.functions() as u32).filter(|&other| other != handle);
    others.map(|other| address.wrapping_sub(offset(asked.parts, other))).any(|address| {
        case.number_of(DataAccess { address, call_edition: LATER_TEXT, ..case.access }) == 0
    })
}

#[cfg(test)]
mod tests {
    use super::*;
    use crate::model::Second;
    use exports::REGISTERS;
    use second::board_b1::b1_image;
    use second::DRAFT_1_9;

    const CELLS: usize = 4096;
    const LAST: DataAccess = DataAccess {
        io: 0,
        width: 4,
        handle: 1,
        address: 0x7000_03FC,
        call_edition: DRAFT_1_9,
        lent: CELLS,
    };

    /// B1 with the offset F0000000h at handle 1.
    fn b1() -> Second {
        let mut second = Second::new(vec![0; CELLS]);
        assert_eq!(second.perform(&Call::Load { image: b1_image(), lent: CELLS }).number, 0);
        second.parts.records[536] = 0xF0;
        second
    }

    fn met_by(second: &mut Second, call: Call) -> Vec<&'static str> {
        let number = second.perform(&call).number;
        let (parts, cells) = (&second.parts, &second.cells);
        let met = met(&Asked { call: &call, parts, board: &parts.board(), cells }, number);
        met.into_iter().filter(|(_, met)| *met).map(|(what, _)| what).collect()
    }

    fn read(second: &mut Second, access: DataAccess) -> Vec<&'static str> {
        met_by(second, Call::ReadData(access))
    }

    #[test]
    fn searches() {
        let mut b1 = b1();
        let call_edition = DRAFT_1_9;
        let device = |id, index| Call::FindPciDevice { id, index, call_edition };
        let class = |class_code, index| Call::FindPciClasscode { class_code, index, call_edition };
        assert_eq!(met_by(&mut b1, device(0x0F0F_0001, 1)), [DEVICES_PASSED, DRAFT_ID]);
        assert_eq!(met_by(&mut b1, device(0x0001_0F0F, 0)), [LATER_ID]);
        assert_eq!(met_by(&mut b1, device(0x0000_FFFF, 0)), [LATER_VENDOR]);
        assert_eq!(met_by(&mut b1, device(0xFFFF_0001, 0)), [BAD_VENDOR]);
        assert_eq!(met_by(&mut b1, device(0xFFFF_0001, 2)), [BAD_VENDOR, BAD_VENDOR_PAST]);
        assert_eq!(met_by(&mut b1, device(u32::MAX, 1)), [BAD_VENDOR, BAD_VENDOR_LATER]);
        assert_eq!(met_by(&mut b1, class(0xFF11_8000, 0)), [CLASS_BITS]);
        assert_eq!(met_by(&mut b1, class(0x0011_8000, 1)), [CLASSES_PASSED]);
        assert_eq!(met_by(&mut b1, class(0x0111_8055, 0)), [LATER_CLASS[0]]);
        assert_eq!(met_by(&mut b1, class(0x0655_5500, 0)), [LATER_CLASS[1], LATER_CLASS[2]]);
        assert!(met_by(&mut b1, class(0x0011_8055, 0)).is_empty());
        b1.parts.registers[REGISTERS + 2..REGISTERS + 4].fill(0xFF);
        assert_eq!(met_by(&mut b1, device(0x0F0F_FFFF, 0)), [DEVICE_FFFF]);
        b1.parts.header[0] = 0;
        assert_eq!(met_by(&mut b1, device(0xFFFF_0001, 0)), [BAD_VENDOR_EMPTY]);
    }

    /// The numbers, then a window at FFFFFC00h with the offset 400h.
    #[test]
    fn accesses() {
        let mut b1 = b1();
        let accepted = [BY_WIDTH[2][0], WRAPPED[0], LATER_REFUSES[0]];
        assert_eq!(read(&mut b1, LAST), accepted);
        assert_eq!(
            read(&mut b1, DataAccess { address: 0x8000_03FC, ..LAST }),
            [LATER_ACCEPTS[0], OTHER_OFFSET[0]]
        );
        assert!(read(&mut b1, DataAccess { address: 0x7000_0400, ..LAST }).is_empty());
        let fast = Call::FastReadData(DataAccess { width: 1, ..LAST });
        assert_eq!(met_by(&mut b1, fast), [BY_WIDTH[0][1], WRAPPED[1], LATER_REFUSES[1]]);
        b1.parts.records[536..540].copy_from_slice(&[0, 0, 0, 4]);
        let write =
            Call::WriteData { access: DataAccess { address: 0x8000_0004, ..LAST }, value: 1 };
        assert_eq!(met_by(&mut b1, write), [BY_WIDTH[2][2], OTHER_CELLS[2]]);
        let second = DataAccess { handle: 2, address: 0x8000_0404, ..LAST };
        assert!(read(&mut b1, second).is_empty());
        b1.parts.records[1080..1084].copy_from_slice(&[0, 0, 0, 8]);
        let io = DataAccess { io: 1, width: 1, address: 0x0000_0110, ..second };
        assert_eq!(read(&mut b1, io), [BY_WIDTH[0][0], IN_IO[0], LATER_REFUSES[0]]);
    }

    /// An offset that is no multiple of 4.
    #[test]
    fn alignment_of_the_bus_address() {
        let mut b1 = b1();
        b1.parts.records[539] = 1;
        let odd = DataAccess { address: 0x7000_03FD, ..LAST };
        let accepted = [BY_WIDTH[2][0], WRAPPED[0], LATER_REFUSES[0], CPU_NOT_ALIGNED[0]];
        assert_eq!(read(&mut b1, odd), accepted);
        assert_eq!(read(&mut b1, LAST), [BUS_NOT_ALIGNED[0]]);
    }
}
