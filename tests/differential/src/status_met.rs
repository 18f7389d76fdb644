//! What a call met of status, by request E2: each masked bit of 06h and 07h becomes old AND NOT
//! written. It is worked out from the parts before the call, its value and the masks, by no rule
//! of `second`.

use crate::access::Access;
use crate::calls::{Answer, Call};
use crate::history::History;
use crate::met::{addressed, Met};
use crate::parts::Parts;

pub const STATUS: [usize; 2] = [0x06, 0x07];
/// The command is these two.
const COMMAND: [usize; 2] = [0x04, 0x05];

/// By way: a byte, the word, the longword at 04h. This one counts where it also changes the
/// command.
macro_rules! by_way {
    ($what:literal) => {
        [
            concat!($what, " by a byte"),
            concat!($what, " by a word"),
            concat!($what, " by a longword that also changes command"),
        ]
    };
}
const LONGWORD: usize = 2;

/// By register, 06h and 07h, then by way.
const CLEARED: [[&str; 3]; 2] = [by_way!("a bit of 06h cleared"), by_way!("a bit of 07h cleared")];
const KEPT_BY_0: [[&str; 3]; 2] = [
    by_way!("a masked bit of 06h written 0 and kept"),
    by_way!("a masked bit of 07h written 0 and kept"),
];
const KEPT_BY_MASK: [[&str; 3]; 2] =
    [by_way!("a bit of 06h kept by its mask"), by_way!("a bit of 07h kept by its mask")];
const STAYS_0: [[&str; 3]; 2] = [
    by_way!("a masked 0 of 06h written 1 and not set"),
    by_way!("a masked 0 of 07h written 1 and not set"),
];

/// Values, by way, where a masked bit is set.
const ZERO: [&str; 3] = by_way!("status written 0");
const ONES: [&str; 3] = by_way!("status written all ones");
const BACK: [&str; 3] = by_way!("status written what was read");

/// By register: 05h, which takes what is written, and 08h, whose mask only an altered board has.
const NO_STATUS: [(usize, &str); 2] = [
    (0x05, "a masked 1 of 05h written 1, which status would clear"),
    (0x08, "a masked 1 of 08h written 1, which status would clear"),
];
const ANOTHER_KEEPS: &str = "a status bit cleared that another function keeps";
/// Plain and fast.
const READ: [&str; 2] =
    ["a read of status with a masked bit set", "a fast read of status with a masked bit set"];
/// By number: -9, -8, -5.
const REFUSED: [&str; 3] = [
    "a write that would clear a status bit if its handle were cut",
    "a write that would clear a status bit but for its width",
    "a write that would clear a status bit but for its register number",
];
/// By whether it is a load, then refused and accepted.
const AGAIN: [[&str; 2]; 2] = [
    [
        "a status bit still cleared after a refused reset",
        "a cleared status bit set again by a reset",
    ],
    ["a status bit still cleared after a refused load", "a cleared status bit set again by a load"],
];
const IMAGE: &str = "an image written with a status bit that was cleared";

/// All that a set of runs must have met of status.
pub fn all() -> impl Iterator<Item = &'static str> {
    let bits = [CLEARED, KEPT_BY_0, KEPT_BY_MASK, STAYS_0].into_iter().flatten();
    let values = [ZERO, ONES, BACK];
    let single = NO_STATUS.into_iter().map(|(_, what)| what).chain([ANOTHER_KEEPS, IMAGE]);
    let others = single.chain(REFUSED).chain(READ).chain(AGAIN.into_iter().flatten());
    bits.chain(values).flatten().chain(others)
}

/// What a call met that left these parts, after this history.
pub fn met(call: &Call, answer: &Answer, before: &Parts, after: &Parts, history: &History) -> Met {
    let accepted = answer.number == 0;
    match call {
        Call::WriteConfig { access, value } if accepted => written(before, *access, *value),
        Call::WriteConfig { access, value } => refused(before, *access, *value, answer.number),
        Call::ReadConfig(access) | Call::FastReadConfig(access) => {
            let fast = usize::from(matches!(call, Call::FastReadConfig(_)));
            vec![(READ[fast], accepted && cleared(before, *access, u32::MAX) != [0, 0])]
        }
        Call::Reset { .. } | Call::Load { .. } => {
            let load = usize::from(matches!(call, Call::Load { .. }));
            let again = set_again(before, after, history);
            vec![(AGAIN[load][usize::from(accepted)], again)]
        }
        Call::WriteImage { .. } => {
            vec![(IMAGE, accepted && set_again(before, after, history))]
        }
        _ => Met::new(),
    }
}

/// The bits of 06h and 07h that a write clears where it is accepted.
pub fn cleared(before: &Parts, access: Access, value: u32) -> [u8; STATUS.len()] {
    let bytes = bytes(before, access, value);
    STATUS.map(|register| {
        let byte = bytes.iter().find(|byte| byte.register == register);
        byte.map_or(0, |byte| byte.old & byte.mask & byte.written)
    })
}

/// Whether a bit that writes cleared is loaded with 1, in the same function before and after.
fn set_again(before: &Parts, after: &Parts, history: &History) -> bool {
    history.cleared.iter().any(|(&handle, bits)| {
        let same = before.record(handle) == after.record(handle);
        let mut registers = STATUS.into_iter().zip(bits);
        same && registers.any(|(register, bits)| after.loaded(handle, register) & bits != 0)
    })
}

/// A byte that a write addresses, from the command to the one past status.
struct Byte {
    register: usize,
    old: u8,
    mask: u8,
    written: u8,
}

fn bytes(before: &Parts, access: Access, value: u32) -> Vec<Byte> {
    let mut addressed: Vec<_> = addressed(access).zip(value.to_le_bytes()).collect();
    addressed.retain(|(register, _)| (COMMAND[0]..=0x08).contains(register));
    let byte = |(register, written)| Byte {
        register,
        old: before.register(access.handle, register),
        mask: before.mask(access.handle, register),
        written,
    };
    addressed.into_iter().map(byte).collect()
}

/// What an accepted write met.
fn written(before: &Parts, access: Access, value: u32) -> Met {
    let bytes = bytes(before, access, value);
    let mut met = Met::new();
    for (register, what) in NO_STATUS {
        let byte = bytes.iter().find(|byte| byte.register == register);
        met.push((what, byte.is_some_and(|byte| byte.old & byte.mask & byte.written != 0)));
    }
    let changes = |byte: &Byte| (byte.old ^ byte.written) & byte.mask != 0;
    let command = |byte: &Byte| COMMAND.contains(&byte.register) && changes(byte);
    let way = access.width as usize / 2;
    if way != LONGWORD || bytes.iter().any(command) {
        let status: Vec<_> =
            bytes.into_iter().filter(|byte| STATUS.contains(&byte.register)).collect();
        met.extend(by_bits(&status, way));
        met.extend(by_value(&status, way));
    }
    met.push((ANOTHER_KEEPS, another_keeps(before, access, value)));
    met
}

/// What a write met that was refused with this number, where another refusal does not apply.
fn refused(before: &Parts, access: Access, value: u32, number: i64) -> Met {
    let cut = Access { handle: access.handle & 0xFF, ..access };
    let clears = (1..=before.functions() as u32).contains(&cut.handle)
        && cleared(before, cut, value) != [0, 0];
    let aligned = u32::from(access.register).is_multiple_of(access.width);
    vec![
        (REFUSED[0], clears && number == -9 && aligned),
        (REFUSED[1], clears && number == -8 && access.handle == cut.handle),
        (REFUSED[2], clears && number == -5),
    ]
}

fn by_bits(status: &[Byte], way: usize) -> Met {
    let of_byte = |byte: &Byte| {
        let at = usize::from(byte.register == STATUS[1]);
        let Byte { old, mask, written, .. } = *byte;
        [
            (CLEARED[at][way], old & mask & written != 0),
            (KEPT_BY_0[at][way], old & mask & !written != 0),
            (KEPT_BY_MASK[at][way], old & !mask & written != 0),
            (STAYS_0[at][way], !old & mask & written != 0),
        ]
    };
    status.iter().flat_map(of_byte).collect()
}

fn by_value(status: &[Byte], way: usize) -> Met {
    let set = status.iter().any(|byte| byte.old & byte.mask != 0);
    let all = |is: fn(&Byte) -> bool| set && status.iter().all(is);
    vec![
        (ZERO[way], all(|byte| byte.written == 0)),
        (ONES[way], all(|byte| byte.written == 0xFF)),
        (BACK[way], all(|byte| byte.written == byte.old)),
    ]
}

/// Whether another function has a bit set, under its mask, that this write clears.
fn another_keeps(before: &Parts, access: Access, value: u32) -> bool {
    let cleared = cleared(before, access, value);
    let keeps = |handle: u32| {
        let mut registers = STATUS.into_iter().zip(cleared);
        registers.any(|(register, bits)| {
            before.register(handle, register) & before.mask(handle, register) & bits != 0
        })
    };
    (1..=before.functions() as u32).any(|handle| handle != access.handle && keeps(handle))
}

#[cfg(test)]
mod tests {
    use super::*;
    use crate::boards::MASKS;
    use crate::model::Second;
    use second::board_b1::{b1_records, image_of};

    const CELLS: usize = 2064;

    /// The request's board: B1 with status at handle 1, and with that of handle 2 where it is
    /// asked for. Of both, what calls did.
    struct Board {
        second: Second,
        history: History,
        image: Vec<u8>,
    }

    impl Board {
        fn new(functions: usize) -> Self {
            let mut records = b1_records();
            for record in &mut records[..functions] {
                record[0x05..=0x07].copy_from_slice(&[0x04, 0xB0, 0xF9]);
                record[MASKS + 0x05..=MASKS + 0x07].copy_from_slice(&[0x05, 0x30, 0xF9]);
            }
            let second = Second::new(vec![0; CELLS]);
            let image = image_of(&records);
            let mut board = Board { second, history: History::default(), image };
            assert!(board.load().is_empty());
            board
        }

        fn met(&mut self, call: Call) -> Vec<&'static str> {
            let before = self.second.parts.clone();
            let answer = self.second.perform(&call);
            let after = &self.second.parts;
            let met = met(&call, &answer, &before, after, &self.history);
            self.history.note(&call, &answer, &before, after);
            met.into_iter().filter(|(_, met)| *met).map(|(what, _)| what).collect()
        }

        fn load(&mut self) -> Vec<&'static str> {
            self.met(Call::Load { image: self.image.clone(), lent: CELLS })
        }

        fn write(&mut self, width: u32, handle: u32, register: u8, value: u32) -> Vec<&str> {
            let access = Access { width, handle, register };
            self.met(Call::WriteConfig { access, value })
        }
    }

    /// The request's calls. Of 06h and 07h, B0h and F9h under the masks 30h and F9h.
    #[test]
    fn the_request() {
        let mut board = Board::new(1);
        let [low, high] = [0, 1];
        let kept = [KEPT_BY_0[low][1], KEPT_BY_0[high][1]];
        let both = [CLEARED[low][1], kept[0], CLEARED[high][1], kept[1]];
        assert_eq!(board.write(2, 1, 0x06, 0x2010), both);
        assert_eq!(board.write(2, 1, 0x06, 0), [kept[0], kept[1], ZERO[1]]);
        assert_eq!(board.write(1, 1, 0x05, 0xFF), [NO_STATUS[0].1]);
        let all = [
            CLEARED[low][LONGWORD],
            KEPT_BY_MASK[low][LONGWORD],
            STAYS_0[low][LONGWORD],
            CLEARED[high][LONGWORD],
            STAYS_0[high][LONGWORD],
            ONES[LONGWORD],
        ];
        assert_eq!(board.write(4, 1, 0x04, 0xFFFF_0003), all);
        assert_eq!(board.met(Call::Reset { lent: CELLS - 1 }), [AGAIN[0][0]]);
        assert_eq!(board.met(Call::WriteImage { out: vec![0; 1100] }), [IMAGE]);
        assert_eq!(board.met(Call::Reset { lent: CELLS }), [AGAIN[0][1]]);
        assert!(board.met(Call::Reset { lent: CELLS }).is_empty());
        assert!(board.met(Call::WriteImage { out: vec![0; 1100] }).is_empty());
    }

    /// A longword that leaves the command as it is counts for nothing but the rest.
    #[test]
    fn bytes_and_longwords() {
        let mut board = Board::new(1);
        assert_eq!(board.write(1, 1, 0x06, 0x80), [KEPT_BY_0[0][0], KEPT_BY_MASK[0][0]]);
        assert_eq!(board.write(1, 1, 0x06, 0xB0), [CLEARED[0][0], KEPT_BY_MASK[0][0], BACK[0]]);
        assert_eq!(board.write(1, 1, 0x06, 0x10), [STAYS_0[0][0]]);
        assert_eq!(board.write(4, 1, 0x04, 0xF980_0403), [NO_STATUS[0].1]);
        assert!(board.write(1, 1, 0x07, 0x06).is_empty());
        assert!(board.write(4, 1, 0x08, u32::MAX).is_empty());
        board.second.parts.records[MASKS + 0x0B] = 0xFF;
        assert!(board.write(4, 1, 0x08, u32::MAX).is_empty());
        board.second.parts.records[MASKS + 0x08] = 0xFF;
        assert!(board.write(1, 1, 0x08, 0x01).is_empty());
        assert_eq!(board.write(1, 1, 0x08, 0x01), [NO_STATUS[1].1]);
    }

    #[test]
    fn reads_and_refused_writes() {
        let mut board = Board::new(1);
        let read = |width, register| Access { width, handle: 1, register };
        assert_eq!(board.met(Call::ReadConfig(read(4, 0x04))), [READ[0]]);
        assert_eq!(board.met(Call::FastReadConfig(read(1, 0x07))), [READ[1]]);
        assert!(board.met(Call::ReadConfig(read(4, 0x06))).is_empty());
        assert!(board.met(Call::ReadConfig(read(2, 0x04))).is_empty());
        assert_eq!(board.write(2, 0x101, 0x06, 0xFFFF), [REFUSED[0]]);
        assert!(board.write(2, 0x101, 0x07, 0xFFFF).is_empty());
        assert!(board.write(2, 0x102, 0x06, 0xFFFF).is_empty());
        assert_eq!(board.write(3, 1, 0x06, 0x10), [REFUSED[1]]);
        assert!(board.write(3, 0x101, 0x06, 0x10).is_empty());
        assert_eq!(board.write(2, 1, 0x05, 0x1000), [REFUSED[2]]);
        assert_eq!(board.write(4, 1, 0x06, 0x0100), [REFUSED[2]]);
        assert!(board.write(2, 1, 0x05, 0x0010).is_empty());
        assert!(board.write(2, 1, 0xFF, 0xFFFF).is_empty());
    }

    #[test]
    fn two_functions_and_loads() {
        let mut board = Board::new(2);
        let met = board.write(1, 1, 0x07, 0x40);
        assert_eq!(met, [CLEARED[1][0], KEPT_BY_0[1][0], ANOTHER_KEEPS]);
        assert_eq!(board.write(1, 2, 0x07, 0x40), [CLEARED[1][0], KEPT_BY_0[1][0]]);
        let cut = board.image[..1000].to_vec();
        assert_eq!(board.met(Call::Load { image: cut, lent: CELLS }), [AGAIN[1][0]]);
        assert_eq!(board.load(), [AGAIN[1][1]]);
        assert!(board.load().is_empty());
        board.write(1, 1, 0x07, 0x40);
        let image = image_of(&b1_records());
        assert!(board.met(Call::Load { image, lent: CELLS }).is_empty());
    }
}
