//! What a call on descriptors met beside the number of its answer.

use crate::calls::{Answer, Call};
use crate::met::Met;
use crate::parts::Parts;
use crate::resource_case::ResourceCase;
use second::{BASES, DESCRIPTOR_LENGTH};

/// All that a set of runs must have met of these calls.
pub const ALL: [&str; 38] = [
    JUST_ENOUGH,
    MORE,
    ONE_LESS,
    NOTHING_LENT,
    BAD_HANDLE,
    NO_WINDOW_ALTERED,
    SIX,
    PASSED_OVER,
    PASSED_OVER_ALTERED,
    LAST_CLOSED,
    OFFSETS,
    OPEN,
    CLOSED,
    CONTESTED,
    OTHER_SPACE,
    FIRST_TAKEN,
    FIRST_CONTESTED,
    PAST_THE_LIST,
    WIDTHS_ABOVE,
    ORDERS[0],
    ORDERS[1],
    ORDERS[2],
    ORDERS[3],
    ORDERS[4],
    BY_NEXT,
    BY_LONGER_NEXT,
    NEXT_PAST_END,
    LAST_OF_SEVERAL,
    BY_LAST_MARK,
    BY_NEXT_BELOW,
    NEXT_19,
    BOTH,
    JUST_20,
    TOO_FEW,
    JUST_19,
    AT_END,
    PAST_END,
    FAR_PAST,
];

const JUST_ENOUGH: &str = "a buffer just long enough for the descriptors";
const MORE: &str = "a buffer longer than the descriptors";
const ONE_LESS: &str = "a buffer one byte too short for the descriptors";
const NOTHING_LENT: &str = "descriptors refused for a buffer of no bytes";
const BAD_HANDLE: &str = "a bad handle whose place has windows, with a buffer too short";
const NO_WINDOW_ALTERED: &str = "no windows, an exponent outside 2..16";
const SIX: &str = "six descriptors";
const PASSED_OVER: &str = "a base register without a window between two descriptors";
const PASSED_OVER_ALTERED: &str = "an exponent outside 2..16 between two descriptors";
const LAST_CLOSED: &str = "a last window of start 0 after one that is open";
const OFFSETS: &str = "offset and dmaoffset that differ, none of them 0";
const OPEN: &str = "the start of an open window";
const CLOSED: &str = "start 0 of a closed window with a start in its register";
const CONTESTED: &str = "start 0 of a contested window";
const OTHER_SPACE: &str = "a kept window of another space than its register";
const FIRST_TAKEN: &str = "two kept windows of one base register, the first taken";
const FIRST_CONTESTED: &str = "two kept windows of one base register, the first contested";
const PAST_THE_LIST: &str = "a kept window past the end of the list alone";
const WIDTHS_ABOVE: &str = "a descriptor of widths with bits above bit 2";
/// By order; every other is shown as 0.
const ORDERS: [&str; 5] = [
    "a descriptor of order 0",
    "a descriptor of order 1",
    "a descriptor of order 2",
    "a descriptor of order 15",
    "a descriptor of another order",
];

const BY_NEXT: &str = "a step by a next field of 20";
const BY_LONGER_NEXT: &str = "a step by a next field above 20 to a descriptor";
const NEXT_PAST_END: &str = "a step by a next field past the end";
const LAST_OF_SEVERAL: &str = "the last of several descriptors of 20 bytes";
const BY_LAST_MARK: &str = "a walk ended by the last mark alone, where a descriptor follows";
const BY_NEXT_BELOW: &str = "a walk ended by next below 20 alone, where 20 bytes follow";
const NEXT_19: &str = "a walk ended by next 19";
const BOTH: &str = "a walk ended by the last mark and next below 20";
const JUST_20: &str = "a step where 20 bytes remain";
const TOO_FEW: &str = "a walk ended by too few bytes";
const JUST_19: &str = "no step where 19 bytes remain";
const AT_END: &str = "no step at the end";
const PAST_END: &str = "no step past the end";
const FAR_PAST: &str = "no step at a position to which 20 cannot be added";

/// What a call met that left the parts as they were.
pub fn met(call: &Call, answer: &Answer, parts: &Parts) -> Met {
    match call {
        Call::GetResource { handle, out } => {
            let case = ResourceCase::new(parts, *handle);
            match answer.number {
                0 => described(&case, out.len()),
                number => not_described(&case, number, out.len()),
            }
        }
        Call::DescriptorStep { bytes, at } if answer.number == 1 => {
            stepped(answer, *at, bytes.len() - at)
        }
        Call::DescriptorStep { bytes, at } => {
            let remaining = bytes.len().checked_sub(*at);
            vec![
                (TOO_FEW, *at > 0 && matches!(remaining, Some(1..=19))),
                (JUST_19, remaining == Some(19)),
                (AT_END, remaining == Some(0)),
                (PAST_END, remaining.is_none()),
                (FAR_PAST, at.checked_add(DESCRIPTOR_LENGTH).is_none()),
            ]
        }
        _ => Met::new(),
    }
}

fn not_described(case: &ResourceCase, number: i64, length: usize) -> Met {
    let needed = case.needed();
    match number {
        -9 => vec![(BAD_HANDLE, length < needed)],
        -8 => vec![(NO_WINDOW_ALTERED, (0..BASES).any(|base| case.entry(base)[0] != 0))],
        _ => vec![(ONE_LESS, length + 1 == needed), (NOTHING_LENT, length == 0)],
    }
}

fn described(case: &ResourceCase, length: usize) -> Met {
    let (needed, bases) = (case.needed(), case.bases());
    let between = || (bases[0]..bases[bases.len() - 1]).filter(|base| !bases.contains(base));
    let shown = |base: &usize| case.kept(*base)[0].first().is_some_and(|w| !w.contested);
    let (last, earlier) = bases.split_last().expect("an accepted call shows windows");
    let [offset, dmaoffset] = case.offsets();
    let mut met = vec![
        (JUST_ENOUGH, length == needed),
        (MORE, length > needed),
        (SIX, bases.len() == BASES),
        (PASSED_OVER, between().any(|base| case.entry(base)[0] == 0)),
        (PASSED_OVER_ALTERED, between().any(|base| case.entry(base)[0] != 0)),
        (LAST_CLOSED, !shown(last) && earlier.iter().any(shown)),
        (OFFSETS, offset != dmaoffset && offset != 0 && dmaoffset != 0),
    ];
    met.extend(bases.iter().flat_map(|&base| window(case, base)));
    met
}

/// What was met of one window.
fn window(case: &ResourceCase, base: usize) -> Met {
    let [k, order, widths, _] = case.entry(base);
    let [kept, past] = case.kept(base);
    let register = case.register(base);
    let order = [0, 1, 2, 15].iter().position(|&known| known == order).unwrap_or(4);
    let mut met = vec![(WIDTHS_ABOVE, widths > 7), (ORDERS[order], true)];
    let Some(first) = kept.first() else {
        met.push((CLOSED, register >> k != 0));
        met.push((PAST_THE_LIST, !past.is_empty()));
        return met;
    };
    let other = kept.iter().any(|window| window.start != first.start && !window.contested);
    met.extend([
        (OPEN, !first.contested),
        (CONTESTED, first.contested && first.start != 0),
        (OTHER_SPACE, first.io != (register & 1 == 1)),
        (FIRST_TAKEN, !first.contested && other),
        (FIRST_CONTESTED, first.contested && other),
    ]);
    met
}

/// What a step met that found a descriptor.
fn stepped(answer: &Answer, at: usize, remaining: usize) -> Met {
    let (next, last) = (answer.values[0] as usize, answer.values[1] >= 0x8000);
    let (below, follows) = (next < DESCRIPTOR_LENGTH, next + DESCRIPTOR_LENGTH <= remaining);
    vec![
        (BY_NEXT, !last && next == DESCRIPTOR_LENGTH),
        (BY_LONGER_NEXT, !last && next > DESCRIPTOR_LENGTH && follows),
        (NEXT_PAST_END, !last && next > remaining),
        (LAST_OF_SEVERAL, last && next == DESCRIPTOR_LENGTH && at >= DESCRIPTOR_LENGTH),
        (BY_LAST_MARK, last && !below && follows),
        (BY_NEXT_BELOW, !last && below && follows),
        (NEXT_19, !last && next == DESCRIPTOR_LENGTH - 1),
        (BOTH, last && below),
        (JUST_20, remaining == DESCRIPTOR_LENGTH),
    ]
}

#[cfg(test)]
mod tests {
    use super::*;
    use crate::access::Access;
    use crate::model::Second;
    use second::board_b1::b1_image;

    /// Where the window entries of B1's functions stand.
    const ENTRY: usize = 512;
    const ENTRY_2: usize = 544 + 512;

    fn met_by(second: &mut Second, call: Call) -> Vec<&'static str> {
        let answer = second.perform(&call);
        let met = met(&call, &answer, &second.parts);
        met.into_iter().filter(|(_, met)| *met).map(|(what, _)| what).collect()
    }

    fn resource(second: &mut Second, handle: u32, length: usize) -> Vec<&'static str> {
        met_by(second, Call::GetResource { handle, out: vec![0; length] })
    }

    fn fresh_b1() -> Second {
        let mut second = Second::new(vec![0; 4096]);
        assert_eq!(second.perform(&Call::Load { image: b1_image(), lent: 4096 }).number, 0);
        second
    }

    fn write(second: &mut Second, register: u8, value: u32) {
        let access = Access { width: 4, handle: 2, register };
        assert_eq!(second.perform(&Call::WriteConfig { access, value }).number, 0);
    }

    #[test]
    fn descriptors() {
        let mut b1 = fresh_b1();
        assert_eq!(resource(&mut b1, 1, 20), [JUST_ENOUGH, ORDERS[1], OPEN]);
        assert_eq!(resource(&mut b1, 1, 21), [MORE, ORDERS[1], OPEN]);
        assert_eq!(resource(&mut b1, 1, 19), [ONE_LESS]);
        assert_eq!(resource(&mut b1, 2, 0), [NOTHING_LENT]);
        assert!(resource(&mut b1, 3, 0).is_empty());
        // P11, then the I/O window is closed.
        write(&mut b1, 0x10, 0x8000_0000);
        let contested = [JUST_ENOUGH, ORDERS[1], CONTESTED, ORDERS[2], OPEN];
        assert_eq!(resource(&mut b1, 2, 40), contested);
        write(&mut b1, 0x10, 0x8000_0400);
        write(&mut b1, 0x04, 2);
        let closed = [JUST_ENOUGH, LAST_CLOSED, ORDERS[1], OPEN, ORDERS[2], CLOSED];
        assert_eq!(resource(&mut b1, 2, 40), closed);
        b1.parts.header[0] = 1;
        assert_eq!(resource(&mut b1, 2, 39), [BAD_HANDLE]);
    }

    #[test]
    fn altered_boards() {
        let mut b1 = fresh_b1();
        b1.parts.records[ENTRY + 1..ENTRY + 3].copy_from_slice(&[7, 8]);
        assert_eq!(resource(&mut b1, 1, 20), [JUST_ENOUGH, WIDTHS_ABOVE, ORDERS[4], OPEN]);
        b1.parts.records[ENTRY..ENTRY + 3].copy_from_slice(&[17, 0, 1]);
        assert_eq!(resource(&mut b1, 1, 20), [NO_WINDOW_ALTERED]);
        b1.parts.records[ENTRY] = 10;
        b1.parts.windows[0] |= 1 << 58;
        assert_eq!(resource(&mut b1, 1, 20), [JUST_ENOUGH, ORDERS[0], OPEN, OTHER_SPACE]);
        b1.parts.windows[1] = b1.parts.windows[0] ^ (1 << 26 | 1 << 58);
        b1.parts.windows[0] ^= 1 << 58;
        assert_eq!(resource(&mut b1, 1, 20), [JUST_ENOUGH, ORDERS[0], OPEN, FIRST_TAKEN]);
        b1.parts.windows[0] |= 1;
        assert_eq!(resource(&mut b1, 1, 20), [JUST_ENOUGH, ORDERS[0], CONTESTED, FIRST_CONTESTED]);
        b1.parts.windows[0] = 0;
        assert_eq!(resource(&mut b1, 1, 20), [JUST_ENOUGH, ORDERS[0], CLOSED, PAST_THE_LIST]);
        b1.parts.windows[1] = 0;
        b1.parts.records[ENTRY_2 + 8] = 17;
        b1.parts.records[ENTRY_2 + 16] = 4;
        b1.parts.records[544 + 539] = 4;
        b1.parts.records[544 + 543] = 8;
        let passed = [MORE, PASSED_OVER, PASSED_OVER_ALTERED, OFFSETS];
        assert_eq!(resource(&mut b1, 2, 61)[..4], passed);
    }

    fn step(next: u16, flags: u8, at: usize, length: usize) -> Vec<&'static str> {
        let mut bytes = vec![0; length];
        let [high, low] = next.to_be_bytes();
        bytes.iter_mut().skip(at).zip([high, low, flags]).for_each(|(byte, field)| *byte = field);
        met_by(&mut Second::new(Vec::new()), Call::DescriptorStep { bytes, at })
    }

    #[test]
    fn steps() {
        assert_eq!(step(20, 0, 0, 40), [BY_NEXT]);
        assert_eq!(step(21, 0, 0, 41), [BY_LONGER_NEXT]);
        assert_eq!(step(21, 0, 0, 20), [NEXT_PAST_END, JUST_20]);
        assert_eq!(step(20, 0x80, 20, 40), [LAST_OF_SEVERAL, JUST_20]);
        assert_eq!(step(24, 0x80, 0, 44), [BY_LAST_MARK]);
        assert_eq!(step(19, 0, 0, 39), [BY_NEXT_BELOW, NEXT_19]);
        assert_eq!(step(0, 0xC0, 1, 22), [BOTH]);
        assert_eq!(step(0, 0, 1, 20), [TOO_FEW, JUST_19]);
        assert_eq!(step(0, 0, 20, 20), [AT_END]);
        assert_eq!(step(0, 0, 21, 20), [PAST_END]);
        assert_eq!(step(0, 0, usize::MAX - 19, 20), [PAST_END, FAR_PAST]);
    }
}
