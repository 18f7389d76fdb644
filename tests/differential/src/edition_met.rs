//! What a search or data call met of the edition that it names; of draft 1.9 more is in
//! draft_met.rs.

use crate::access::DataAccess;
use crate::calls::{Answer, Call};
use crate::data_arguments::offset;
use crate::data_case::DataCase;
use crate::data_model;
use crate::draft_met;
use crate::editions::{is_known, named};
use crate::history::History;
use crate::met::Met;
use crate::parts::Parts;
use crate::script_encode::is_refused;
use second::{Board, DRAFT_1_9, LATER_TEXT};

/// By call: the searches, then the data calls.
macro_rules! by_call {
    ($what:literal) => {
        [
            concat!("a device search ", $what),
            concat!("a class search ", $what),
            concat!("a data read ", $what),
            concat!("a fast data read ", $what),
            concat!("a data write ", $what),
        ]
    };
}

/// By edition, then accepted and refused.
const KNOWN: [[[&str; 5]; 2]; 2] = [
    [by_call!("of draft 1.9 accepted"), by_call!("of draft 1.9 refused")],
    [by_call!("of the later text accepted"), by_call!("of the later text refused")],
];
const UNKNOWN: [&str; 5] = by_call!("of an unknown edition that a known one would accept");

/// By what else refuses the call, in both known editions.
const UNKNOWN_AND: [[&str; 5]; 8] = [
    by_call!("of an unknown edition with a bad handle"),
    by_call!("of an unknown edition with cells too short"),
    by_call!("of an unknown edition that is not aligned"),
    by_call!("of an unknown edition that no window holds"),
    by_call!("of an unknown edition in a contested window"),
    by_call!("of an unknown edition and a width not offered"),
    by_call!("of an unknown edition and a width that there is not"),
    by_call!("of an unknown edition that matches nothing"),
];
const OTHER_WIDTH: usize = 6;
const NO_MATCH: usize = 7;

/// On a board, and on the empty one.
const UNKNOWN_VENDOR: [&str; 2] = [
    "vendor FFFFh in bits 31..16 with an unknown edition",
    "vendor FFFFh in bits 31..16 with an unknown edition on the empty board",
];
/// By width: 1, 2, 4, any other.
const FILLERS: [&str; 4] = [
    "all ones of a byte for an unknown edition",
    "all ones of a word for an unknown edition",
    "all ones of a longword for an unknown edition",
    "all ones for an unknown edition and a width that there is not",
];
const NUMBERS: [(u32, &str); 3] =
    [(0, "edition 0"), (3, "edition 3"), (u32::MAX, "edition FFFFFFFFh")];
/// By how many bits are taken: 8, 16, 31.
const CUT: [&str; 3] = [
    "an edition that 8 bits of it would make a known one",
    "an edition that 16 bits of it would make a known one",
    "an edition that 31 bits of it would make a known one",
];

const LATER_REFUSES: &str = "an access that the later text refuses and draft 1.9 would accept";
/// By the edition that reads: draft 1.9, the later text; plain and fast.
const CROSSED: [[&str; 2]; 2] = [
    [
        "a read by draft 1.9 of what the later text wrote",
        "a fast read by draft 1.9 of what the later text wrote",
    ],
    [
        "a read by the later text of what draft 1.9 wrote",
        "a fast read by the later text of what draft 1.9 wrote",
    ],
];

/// All that a set of runs must have met of editions.
pub fn all() -> impl Iterator<Item = &'static str> {
    let known = KNOWN.into_iter().flatten().flatten();
    // No search is refused as a data call is, and no data call for want of a match.
    let data = UNKNOWN_AND[..NO_MATCH].iter().flat_map(|by_call| &by_call[2..]);
    let unknown = data.chain(&UNKNOWN_AND[NO_MATCH][..2]).copied().chain(UNKNOWN);
    let numbers = NUMBERS.into_iter().map(|(_, what)| what).chain(CUT);
    let crossed = CROSSED.into_iter().flatten().chain([LATER_REFUSES]);
    let single = numbers.chain(UNKNOWN_VENDOR).chain(FILLERS).chain(crossed);
    known.chain(unknown).chain(single).chain(draft_met::all())
}

/// What a call met that left the parts as they were, and these cells, after this history.
pub fn met(call: &Call, answer: &Answer, parts: &Parts, cells: &[u8], history: &History) -> Met {
    let Some(call_edition) = named(call) else {
        return Met::new();
    };
    let asked = Asked { call, parts, board: &parts.board(), cells };
    let refused = is_refused(call, answer);
    let mut met = match call_edition {
        DRAFT_1_9 => draft_met::met(&asked, answer.number),
        LATER_TEXT => {
            let else_accepted = asked.access().is_some() && asked.number_in(DRAFT_1_9) == 0;
            vec![(LATER_REFUSES, refused && else_accepted)]
        }
        _ => return unknown(&asked, call_edition),
    };
    let edition = usize::from(call_edition == LATER_TEXT);
    met.push((KNOWN[edition][usize::from(refused)][asked.kind()], true));
    let fast = usize::from(matches!(call, Call::FastReadData(_)));
    met.push((CROSSED[edition][fast], !refused && asked.crosses(answer, history)));
    met
}

/// A call that names an edition, with the board of the parts and the cells.
pub struct Asked<'a> {
    pub call: &'a Call,
    pub parts: &'a Parts,
    pub board: &'a Board,
    pub cells: &'a [u8],
}

impl Asked<'_> {
    /// The call's place among those that name an edition.
    pub fn kind(&self) -> usize {
        match self.call {
            Call::FindPciDevice { .. } => 0,
            Call::FindPciClasscode { .. } => 1,
            Call::ReadData(_) => 2,
            Call::FastReadData(_) => 3,
            _ => 4,
        }
    }

    /// What it names, of a data call.
    pub fn access(&self) -> Option<DataAccess> {
        match *self.call {
            Call::ReadData(access)
            | Call::FastReadData(access)
            | Call::WriteData { access, .. } => Some(access),
            _ => None,
        }
    }

    /// The case of a data call with these numbers.
    pub fn case(&self, access: DataAccess) -> Option<DataCase<'_>> {
        DataCase::new(self.parts, self.board, self.cells, access)
    }

    /// The number that it has in an edition; a data call has that of the plain read.
    pub fn number_in(&self, call_edition: u32) -> i64 {
        match *self.call {
            Call::FindPciDevice { id, index, .. } => {
                self.board.find_pci_device(id, index, call_edition).into()
            }
            Call::FindPciClasscode { class_code, index, .. } => {
                self.board.find_pci_classcode(class_code, index, call_edition).into()
            }
            _ => self.access().map_or(0, |access| {
                let access = DataAccess { call_edition, ..access };
                data_model::read(self.board, self.cells, access).number
            }),
        }
    }

    /// Whether it reads what the other edition wrote last, by another number than that named.
    fn crosses(&self, answer: &Answer, history: &History) -> bool {
        let (Some(read), Some(write)) = (self.access(), history.written) else {
            return false;
        };
        let offset = offset(self.parts, read.handle);
        let cells =
            |access: DataAccess| (access.io != 0, access.width, access.handle, access.bus(offset));
        read.call_edition != write.call_edition
            && self.kind() != 4
            && offset != 0
            && cells(read) == cells(write)
            && answer.values[0] != 0
    }
}

/// What a call of an edition that there is not met.
fn unknown(asked: &Asked, call_edition: u32) -> Met {
    let [draft, later] = [DRAFT_1_9, LATER_TEXT].map(|known| asked.number_in(known));
    let mut met = vec![(UNKNOWN[asked.kind()], draft >= 0 || later >= 0)];
    met.extend(NUMBERS.map(|(number, what)| (what, call_edition == number)));
    for (what, bits) in CUT.into_iter().zip([8, 16, 31]) {
        let cut = call_edition & ((1 << bits) - 1);
        met.push((what, is_known(cut) && asked.number_in(cut) >= 0));
    }
    match (asked.call, asked.access()) {
        (_, Some(access)) => met.extend(unknown_access(asked, access)),
        (Call::FindPciDevice { id, .. }, _) if id >> 16 == 0xFFFF => {
            met.push((UNKNOWN_VENDOR[usize::from(asked.parts.functions() == 0)], true));
        }
        _ => met.push((UNKNOWN_AND[NO_MATCH][asked.kind()], draft == -4 && later == -4)),
    }
    met
}

fn unknown_access(asked: &Asked, access: DataAccess) -> Met {
    let named = |call_edition| asked.case(DataAccess { call_edition, ..access });
    let (cause, width) = match [DRAFT_1_9, LATER_TEXT].map(named) {
        [Some(draft), Some(later)] => {
            let cause = refusal(&draft).filter(|cause| refusal(&later) == Some(*cause));
            (cause, draft.width)
        }
        _ => (Some(OTHER_WIDTH), 3),
    };
    let mut met = vec![(FILLERS[width], asked.kind() == 3)];
    met.extend(cause.map(|cause| (UNKNOWN_AND[cause][asked.kind()], true)));
    met
}

/// What refuses a data call of a known edition: its place in `UNKNOWN_AND`.
fn refusal(case: &DataCase) -> Option<usize> {
    match case.number {
        -9 => Some(0),
        -7 if case.lent() < case.total() => Some(1),
        -8 if !case.aligned() => Some(2),
        -8 if case.taken().is_none() => Some(3),
        -8 => Some(4),
        -2 => Some(5),
        _ => None,
    }
}

#[cfg(test)]
mod tests {
    use super::*;
    use crate::model::Second;
    use second::board_b1::b1_image;

    const CELLS: usize = 4096;
    /// The last longword of handle 1, as the later text names it.
    const LAST: DataAccess = DataAccess {
        io: 0,
        width: 4,
        handle: 1,
        address: 0x8000_03FC,
        call_edition: LATER_TEXT,
        lent: CELLS,
    };

    /// B1 with the offset F0000000h at handle 1, and what its calls did.
    struct Board {
        second: Second,
        history: History,
    }

    impl Board {
        fn new() -> Self {
            let mut second = Second::new(vec![0; CELLS]);
            assert_eq!(second.perform(&Call::Load { image: b1_image(), lent: CELLS }).number, 0);
            second.parts.records[536] = 0xF0;
            Board { second, history: History::default() }
        }

        /// What a call met, but for what is of draft 1.9 alone.
        fn met(&mut self, call: Call) -> Vec<&'static str> {
            let Board { second, history } = self;
            let answer = second.perform(&call);
            let met = met(&call, &answer, &second.parts, &second.cells, history);
            history.note(&call, &answer, &second.parts, &second.parts);
            let met = met.into_iter().filter(|(_, met)| *met).map(|(what, _)| what);
            met.filter(|what| draft_met::all().all(|of_draft| of_draft != *what)).collect()
        }

        fn device(&mut self, id: u32, call_edition: u32) -> Vec<&'static str> {
            self.met(Call::FindPciDevice { id, index: 0, call_edition })
        }

        fn class(&mut self, class_code: u32, call_edition: u32) -> Vec<&'static str> {
            self.met(Call::FindPciClasscode { class_code, index: 0, call_edition })
        }

        fn read(&mut self, access: DataAccess) -> Vec<&'static str> {
            self.met(Call::ReadData(access))
        }

        fn fast(&mut self, access: DataAccess) -> Vec<&'static str> {
            self.met(Call::FastReadData(access))
        }
    }

    #[test]
    fn searches() {
        let mut b1 = Board::new();
        assert_eq!(b1.device(0x0F0F_0001, 1), [KNOWN[0][0][0]]);
        assert_eq!(b1.device(0xFFFF_0001, 1), [KNOWN[0][1][0]]);
        assert_eq!(b1.class(0x0111_8055, 2), [KNOWN[1][0][1]]);
        assert_eq!(b1.class(0x0011_8055, 2), [KNOWN[1][1][1]]);
        assert_eq!(b1.device(0x0F0F_0001, 3), [UNKNOWN[0], NUMBERS[1].1]);
        assert_eq!(b1.device(0x1234_5678, 0), [NUMBERS[0].1, UNKNOWN_AND[NO_MATCH][0]]);
        assert_eq!(b1.device(0xFFFF_0001, 4), [UNKNOWN_VENDOR[0]]);
        assert_eq!(b1.device(0x0001_0F0F, 0x102), [UNKNOWN[0], CUT[0]]);
        assert_eq!(b1.device(0x0001_0F0F, 0x101), [UNKNOWN[0]]);
        assert_eq!(b1.class(0xFF11_8000, 0x1_0001), [UNKNOWN[1], CUT[0], CUT[1]]);
        assert_eq!(b1.class(0x0011_8001, u32::MAX), [NUMBERS[2].1, UNKNOWN_AND[NO_MATCH][1]]);
        b1.second.parts.header[0] = 0;
        assert_eq!(b1.device(0xFFFF_0001, 0x8000_0002), [UNKNOWN_VENDOR[1]]);
    }

    /// What else refuses a call of an unknown edition counts where it does so in both others.
    #[test]
    fn data_of_unknown_editions() {
        let mut b1 = Board::new();
        let first = DataAccess { call_edition: 4, ..LAST };
        let second = DataAccess { handle: 2, address: 0x8000_0400, ..first };
        assert_eq!(b1.read(first), [UNKNOWN[2]]);
        assert_eq!(b1.fast(first), [UNKNOWN[3], FILLERS[2]]);
        let write = Call::WriteData { access: first, value: 1 };
        assert_eq!(b1.met(write), [UNKNOWN[4]]);
        let draft = DataAccess { address: 0x7000_03FC, call_edition: 0x8000_0001, ..LAST };
        assert_eq!(b1.read(draft), [UNKNOWN[2], CUT[0], CUT[1], CUT[2]]);
        assert_eq!(b1.read(DataAccess { handle: 9, lent: 0, ..first }), [UNKNOWN_AND[0][2]]);
        assert_eq!(b1.read(DataAccess { lent: 2063, address: 1, ..first }), [UNKNOWN_AND[1][2]]);
        assert_eq!(b1.read(DataAccess { address: 0x8000_0001, ..first }), [UNKNOWN_AND[2][2]]);
        assert_eq!(b1.read(DataAccess { address: 0x9000_0000, ..first }), [UNKNOWN_AND[3][2]]);
        let io = DataAccess { io: 1, width: 2, address: 0x100, ..second };
        assert_eq!(b1.fast(io), [FILLERS[1], UNKNOWN_AND[5][3]]);
        let other = DataAccess { width: 3, ..second };
        assert_eq!(b1.fast(other), [FILLERS[3], UNKNOWN_AND[OTHER_WIDTH][3]]);
        b1.second.parts.windows[1] |= 1;
        assert_eq!(b1.read(second), [UNKNOWN_AND[4][2]]);
        b1.second.parts.windows[0] |= 1;
        assert!(b1.read(first).is_empty());
    }

    /// The numbers: 700003FCh in draft 1.9 is 800003FCh in the later text.
    #[test]
    fn both_on_one_window() {
        let mut b1 = Board::new();
        let draft = DataAccess { address: 0x7000_03FC, call_edition: DRAFT_1_9, ..LAST };
        let write = |access, value| Call::WriteData { access, value };
        assert_eq!(b1.met(write(draft, 1)), [KNOWN[0][0][4]]);
        assert_eq!(b1.read(draft), [KNOWN[0][0][2]]);
        assert_eq!(b1.read(LAST), [KNOWN[1][0][2], CROSSED[1][0]]);
        assert_eq!(b1.fast(LAST), [KNOWN[1][0][3], CROSSED[1][1]]);
        assert_eq!(b1.read(DataAccess { width: 2, ..LAST }), [KNOWN[1][0][2]]);
        assert_eq!(b1.met(write(LAST, 2)), [KNOWN[1][0][4]]);
        assert_eq!(b1.fast(draft), [KNOWN[0][0][3], CROSSED[0][1]]);
        assert_eq!(b1.met(write(LAST, 0)), [KNOWN[1][0][4]]);
        assert_eq!(b1.read(draft), [KNOWN[0][0][2]]);
        let past = DataAccess { address: 0x7000_03FC, ..LAST };
        assert_eq!(b1.read(past), [LATER_REFUSES, KNOWN[1][1][2]]);
        let second = DataAccess { handle: 2, address: 0x8000_0400, ..LAST };
        b1.met(write(second, 3));
        let read = DataAccess { call_edition: DRAFT_1_9, ..second };
        assert_eq!(b1.read(read), [KNOWN[0][0][2]]);
    }
}
