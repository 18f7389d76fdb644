//! What a call met beside the number of its answer; of data calls and conversions, see
//! data_met.rs, of the editions that searches name, edition_met.rs, of status, status_met.rs.

use crate::access::Access;
use crate::boards::{ENTRIES, FIRST_BASE, LAST_OFFSET, OFFSET};
use crate::calls::{Answer, Call};
use crate::parts::Parts;
use crate::status_met::STATUS;
use second::{KeptWindow, BASES, LATER_TEXT, RECORD_LENGTH, TRAILER_LENGTH};
use std::ops::Range;

/// All that a set of runs must have met, by call.
pub const ALL: [&str; 26] = [
    LAST_PLACE,
    GREAT_SUMS[0],
    GREAT_SUMS[1],
    GREATEST_OFFSET,
    CONTESTED,
    TO_THE_END,
    NINETY_SIX,
    NO_EXPONENT,
    DEVICES_PASSED,
    ANY_VENDOR,
    CLASSES_PASSED,
    IGNORED[0],
    IGNORED[1],
    IGNORED[2],
    NO_PART,
    FILLERS[0],
    FILLERS[1],
    FILLERS[2],
    KEEPS_BITS,
    MAKES_CONTESTED,
    CLEARS_ANOTHER,
    OPENS,
    CLOSES,
    LIST_AFRESH,
    LIST_STAYS,
    LIST_STAYS_REFUSED,
];

const LAST_PLACE: &str = "a rule broken at place 15";
/// By number: 5, 6.
const GREAT_SUMS: [&str; 2] =
    ["a wrong sum, the records' above 2^21", "a rule broken, the sum above 2^21"];
const GREATEST_OFFSET: &str = "a load with an offset of FFFFFFFCh";
const CONTESTED: &str = "a contested window";
const TO_THE_END: &str = "a window that ends at 2^32";
const NINETY_SIX: &str = "window 95 of a list";
const NO_EXPONENT: &str = "a listed window, its record's k outside 2..16";
const DEVICES_PASSED: &str = "a device search that passes over matches";
const ANY_VENDOR: &str = "vendor FFFFh that finds a function";
const CLASSES_PASSED: &str = "a class search that passes over matches";
/// By bit, from 24 on.
const IGNORED: [&str; 3] = [
    "an ignored programming interface that mattered",
    "an ignored sub class that mattered",
    "an ignored base class that mattered",
];
const NO_PART: &str = "class bits 31..27 in a search that finds a function";
/// By width: 1, 2, 4.
const FILLERS: [&str; 3] = [
    "a refused fast read of a byte",
    "a refused fast read of a word",
    "a refused fast read of a longword",
];
const KEEPS_BITS: &str = "a write through a partial mask that keeps bits";
const MAKES_CONTESTED: &str = "a write that makes a window contested";
const CLEARS_ANOTHER: &str = "a write that clears the mark of another window than the one moved";
const OPENS: &str = "a write to 04h that opens a window";
const CLOSES: &str = "a write to 04h that closes a window";
const LIST_AFRESH: &str = "a write that works out an altered list afresh";
const LIST_STAYS: &str = "a write that leaves an altered list";
const LIST_STAYS_REFUSED: &str = "a refused write that leaves an altered list";

const COMMAND: usize = 0x04;

/// What can be met, and whether it was.
pub type Met = Vec<(&'static str, bool)>;

/// What a call met that left these parts.
pub fn met(call: &Call, answer: &Answer, before: &Parts, after: &Parts) -> Met {
    let [first, start, length, handle, base, contested] = answer.values;
    match (call, answer.number) {
        (Call::Load { image, .. }, 5 | 6) => {
            let great = GREAT_SUMS[usize::from(answer.number == 6)];
            vec![(LAST_PLACE, first == 15), (great, record_sum(image) > 1 << 21)]
        }
        (Call::Load { .. }, 0) => {
            let mut offsets = after.records.chunks(RECORD_LENGTH).map(|record| &record[OFFSET]);
            vec![(GREATEST_OFFSET, offsets.any(|offset| offset == LAST_OFFSET.to_be_bytes()))]
        }
        (Call::ListWindow { n }, 0) => vec![
            (CONTESTED, contested == 1),
            (TO_THE_END, start + length == 1 << 32),
            (NINETY_SIX, *n == 95),
            (NO_EXPONENT, exponent(before, handle, base).is_some_and(|k| !(2..=16).contains(&k))),
        ],
        (Call::FindPciDevice { id, index, call_edition: LATER_TEXT }, 1..) => {
            let any_vendor = id & 0xFFFF == 0xFFFF;
            vec![(ANY_VENDOR, any_vendor), (DEVICES_PASSED, !any_vendor && *index > 0)]
        }
        (Call::FindPciClasscode { class_code, index, call_edition: LATER_TEXT }, 1..) => {
            class_search(before, *class_code, *index, answer.number)
        }
        (Call::FastReadConfig(access), 1) => vec![
            (FILLERS[0], access.width == 1),
            (FILLERS[1], access.width == 2),
            (FILLERS[2], access.width == 4),
        ],
        (Call::WriteConfig { access, value }, 0) => {
            let mut met = vec![(KEEPS_BITS, keeps_bits(before, *access, *value))];
            met.extend(list_after_write(*access, before, after));
            met
        }
        (Call::WriteConfig { .. }, _) => vec![(LIST_STAYS_REFUSED, is_altered(before))],
        _ => Met::new(),
    }
}

/// k of a handle's base register in the records, where there is one.
fn exponent(parts: &Parts, handle: u64, base: u64) -> Option<u8> {
    let record = parts.records.chunks(RECORD_LENGTH).nth((handle as usize).wrapping_sub(1))?;
    ((base as usize) < BASES).then(|| record[ENTRIES + 4 * base as usize])
}

/// The sum of the records of an image whose distance is right.
fn record_sum(image: &[u8]) -> u32 {
    let (before, trailer) = image.split_at(image.len() - TRAILER_LENGTH);
    let count = usize::from(trailer[5]);
    let records = &before[before.len() - RECORD_LENGTH * count..];
    records.iter().map(|&byte| u32::from(byte)).sum()
}

/// A bit that makes a byte ignored matters where the answer without it is another.
fn class_search(parts: &Parts, class_code: u32, index: u32, number: i64) -> Met {
    let board = parts.board();
    let mattered = |bit: u32| {
        let compared = class_code & !(1 << bit);
        i64::from(board.find_pci_classcode(compared, index, LATER_TEXT)) != number
    };
    vec![
        (IGNORED[0], mattered(24)),
        (IGNORED[1], mattered(25)),
        (IGNORED[2], mattered(26)),
        (NO_PART, class_code >> 27 != 0),
        (CLASSES_PASSED, index > 0),
    ]
}

/// Whether some byte that takes what is written is written where its mask has 1 and where it
/// has 0, with other bits than it has in both.
fn keeps_bits(before: &Parts, access: Access, value: u32) -> bool {
    addressed(access).zip(value.to_le_bytes()).any(|(register, byte)| {
        let other = before.register(access.handle, register) ^ byte;
        let mask = before.mask(access.handle, register);
        !STATUS.contains(&register) && other & mask != 0 && other & !mask != 0
    })
}

/// What an accepted write made of the list.
fn list_after_write(access: Access, before: &Parts, after: &Parts) -> Met {
    match (is_altered(before), before.windows == after.windows) {
        (true, stays) => vec![(LIST_STAYS, stays), (LIST_AFRESH, !stays)],
        (false, true) => Met::new(),
        (false, false) => windows_moved(access, &before.listed(), &after.listed()),
    }
}

/// Whether the kept list is another than count, records and registers give.
fn is_altered(parts: &Parts) -> bool {
    parts.windows != parts.fresh_windows()
}

fn windows_moved(access: Access, before: &[KeptWindow], after: &[KeptWindow]) -> Met {
    let to_base = addressed(access).start >= FIRST_BASE;
    let to_command = addressed(access).contains(&COMMAND);
    let moved = |window: &KeptWindow| {
        let base = FIRST_BASE + 4 * window.base as usize;
        window.handle == access.handle && (base..base + 4).contains(&access.register.into())
    };
    let was = |window: &KeptWindow, contested| {
        let same = |old: &&KeptWindow| (old.handle, old.base) == (window.handle, window.base);
        before.iter().find(same).is_some_and(|old| old.contested == contested)
    };
    let made_contested = |window: &KeptWindow| window.contested && was(window, false);
    let cleared = |window: &KeptWindow| !window.contested && was(window, true);
    vec![
        (MAKES_CONTESTED, after.iter().any(made_contested)),
        (CLEARS_ANOTHER, to_base && after.iter().any(|window| cleared(window) && !moved(window))),
        (OPENS, to_command && after.len() > before.len()),
        (CLOSES, to_command && after.len() < before.len()),
    ]
}

/// The registers that an accepted access addresses.
pub fn addressed(access: Access) -> Range<usize> {
    let first = usize::from(access.register);
    first..first + access.width as usize
}

#[cfg(test)]
mod tests {
    use super::*;
    use crate::boards::great_sum;
    use crate::model::Second;
    use second::board_b1::{b1_image, image_of, plain_record};

    fn met_by(second: &mut Second, call: Call) -> Vec<&'static str> {
        let before = second.parts.clone();
        let answer = second.perform(&call);
        let met = met(&call, &answer, &before, &second.parts);
        met.into_iter().filter(|(_, met)| *met).map(|(what, _)| what).collect()
    }

    fn fresh_b1() -> Second {
        let mut second = Second::new(vec![0; 4096]);
        assert!(met_by(&mut second, Call::Load { image: b1_image(), lent: 4096 }).is_empty());
        second
    }

    #[test]
    fn images() {
        let mut second = Second::new(vec![0; 4096]);
        let mut load = |records: &[_], wrong: u8| {
            let mut image = image_of(records);
            *image.last_mut().unwrap() ^= wrong;
            met_by(&mut second, Call::Load { image, lent: 4096 })
        };
        assert_eq!(load(&great_sum(4), 0), [GREAT_SUMS[1]]);
        assert_eq!(load(&great_sum(4), 1), [GREAT_SUMS[0]]);
        assert!(load(&great_sum(5), 0).is_empty());
        let mut record = plain_record();
        record[OFFSET].copy_from_slice(&LAST_OFFSET.to_be_bytes());
        assert_eq!(load(&[plain_record(), record], 0), [GREATEST_OFFSET]);
        assert!(load(&[plain_record()], 0).is_empty());
    }

    fn write(handle: u32, register: u8, value: u32) -> Call {
        Call::WriteConfig { access: Access { width: 4, handle, register }, value }
    }

    /// P11 and its way back, both command bits off and on, P6.
    #[test]
    fn writes() {
        let mut b1 = fresh_b1();
        assert_eq!(met_by(&mut b1, write(2, 0x10, 0x8000_0000)), [MAKES_CONTESTED]);
        assert_eq!(met_by(&mut b1, write(2, 0x10, 0x8000_0400)), [CLEARS_ANOTHER]);
        assert_eq!(met_by(&mut b1, write(2, 0x04, 0)), [CLOSES]);
        assert_eq!(met_by(&mut b1, write(2, 0x04, 3)), [OPENS]);
        assert_eq!(met_by(&mut b1, write(1, 0x10, 0xFFFF_FFFF)), [KEEPS_BITS]);
    }

    #[test]
    fn writes_with_an_altered_list() {
        let mut b1 = fresh_b1();
        b1.parts.windows[0] ^= 1;
        assert_eq!(met_by(&mut b1, write(3, 0x04, 3)), [LIST_STAYS_REFUSED]);
        assert_eq!(met_by(&mut b1, write(1, 0x08, 0x1180_0000)), [LIST_STAYS]);
        assert_eq!(met_by(&mut b1, write(1, 0x04, 3)), [LIST_AFRESH]);
        assert!(met_by(&mut b1, write(1, 0x04, 3)).is_empty());
    }

    #[test]
    fn listings() {
        let mut b1 = fresh_b1();
        let list = |n| Call::ListWindow { n };
        assert!(met_by(&mut b1, list(2)).is_empty());
        b1.parts.records[RECORD_LENGTH + ENTRIES + 4] = 0;
        assert_eq!(met_by(&mut b1, list(2)), [NO_EXPONENT]);
        assert!(met_by(&mut b1, list(1)).is_empty());
        b1.parts.windows[1] |= 6 << 18 | 1;
        assert_eq!(met_by(&mut b1, list(1)), [CONTESTED]);
    }

    /// P1, P3, P4 and a class whose ignored bytes are its own.
    #[test]
    fn searches() {
        let mut b1 = fresh_b1();
        let call_edition = LATER_TEXT;
        let device = |id, index| Call::FindPciDevice { id, index, call_edition };
        let class = |class_code, index| Call::FindPciClasscode { class_code, index, call_edition };
        assert_eq!(met_by(&mut b1, device(0x0001_0F0F, 1)), [DEVICES_PASSED]);
        assert_eq!(met_by(&mut b1, device(0x0000_FFFF, 0)), [ANY_VENDOR]);
        assert_eq!(met_by(&mut b1, class(0x0111_8055, 0)), [IGNORED[0]]);
        assert_eq!(met_by(&mut b1, class(0x0211_5500, 1)), [IGNORED[1], CLASSES_PASSED]);
        assert_eq!(met_by(&mut b1, class(0x0455_8000, 0)), [IGNORED[2]]);
        assert_eq!(met_by(&mut b1, class(0xFF11_8000, 0)), [NO_PART]);
    }
}
