//! The call at the front of a script or why there is none, after docs/SCRIPT.md.

use crate::access::{Access, DataAccess};
use crate::calls::Call;
use crate::chain_calls::ChainCall;
use crate::script_encode::{exchanged, Asked, HEADER, OWN_LENGTH};
use std::ops::Range;

/// The fields that each operation has, from 1 on: width, space, register or bus, handle, a, b,
/// c.
const FIELDS: [&str; 23] = [
    "", "", "", "abc", "abc", "wrh", "wrh", "wrha", "wshac", "wshac", "wshabc", "ha", "ha", "a",
    "h", "hab", "h", "ab", "h", "hab", "ra", "h", "ha",
];

pub const SHORT: &str = "a script stopped: fewer than 64 bytes remain";
pub const NO_OPERATION: &str = "a script stopped: no operation";
pub const NO_WIDTH: &str = "a script stopped: no width";
pub const NO_SPACE: &str = "a script stopped: no space";
pub const NO_ROOM: &str = "a script stopped: an own buffer does not fit";

/// A field with its place, and what is wrong where a call does not have it and it is not 0.
/// No call has the last.
type Zero = (char, Range<usize>, &'static str);

pub const ZEROS: [Zero; 8] = [
    ('w', 1..2, "a script stopped: a width where there is none"),
    ('s', 2..3, "a script stopped: a space where there is none"),
    ('r', 3..4, "a script stopped: a register where there is none"),
    ('h', 4..8, "a script stopped: a handle where there is none"),
    ('a', 8..12, "a script stopped: an argument a where there is none"),
    ('b', 12..16, "a script stopped: an argument b where there is none"),
    ('c', 16..20, "a script stopped: an argument c where there is none"),
    ('-', 20..60, "a script stopped: bytes 20 to 59 are not 0"),
];

/// The call at the front with the whole cell buffer lent, or all that is wrong with it.
pub fn front(script: &[u8], cells: usize) -> Result<Asked, Vec<&'static str>> {
    let Some((header, rest)) = script.split_first_chunk::<HEADER>() else {
        return Err(vec![SHORT]);
    };
    let wrong = wrong(header);
    if !wrong.is_empty() {
        return Err(wrong);
    }
    match rest.get(..long(header, OWN_LENGTH) as usize) {
        Some(own) => Ok(Asked { call: call(header, own, cells), own: own.to_vec() }),
        None => Err(vec![NO_ROOM]),
    }
}

fn wrong(header: &[u8; HEADER]) -> Vec<&'static str> {
    let row = usize::from(header[0]).checked_sub(1).and_then(|row| FIELDS.get(row));
    let Some(fields) = row else {
        return vec![NO_OPERATION];
    };
    let mut wrong = Vec::new();
    if fields.contains('w') && ![1, 2, 4].contains(&header[1]) {
        wrong.push(NO_WIDTH);
    }
    if fields.contains('s') && header[2] > 1 {
        wrong.push(NO_SPACE);
    }
    for (field, place, cause) in ZEROS {
        if !fields.contains(field) && header[place].iter().any(|&byte| byte != 0) {
            wrong.push(cause);
        }
    }
    wrong
}

/// The call of a header in which nothing is wrong.
fn call(header: &[u8; HEADER], own: &[u8], lent: usize) -> Call {
    let [operation, width, io, register] = [0, 1, 2, 3].map(|at| header[at]);
    let [handle, a, b, c] = [4, 8, 12, 16].map(|at| long(header, at));
    let (width, io, call_edition) = (width.into(), io.into(), exchanged(c));
    let access = Access { width, handle, register };
    let data = DataAccess { io, width, handle, address: a, call_edition, lent };
    match operation {
        1 => Call::Load { image: own.to_vec(), lent },
        2 => Call::Reset { lent },
        3 => Call::WriteImage { out: own.to_vec() },
        4 => Call::FindPciDevice { id: a, index: b, call_edition },
        5 => Call::FindPciClasscode { class_code: a, index: b, call_edition },
        6 => Call::ReadConfig(access),
        7 => Call::FastReadConfig(access),
        8 => Call::WriteConfig { access, value: a },
        9 => Call::ReadData(data),
        10 => Call::FastReadData(data),
        11 => Call::WriteData { access: data, value: b },
        12 => Call::BusToCpu { handle, address: a },
        13 => Call::CpuToBus { handle, address: a },
        14 => Call::ListWindow { n: a },
        15 => Call::GetResource { handle, out: own.to_vec() },
        _ => Call::Chain(chain(operation, register, handle, [a, b])),
    }
}

fn chain(operation: u8, bus: u8, handle: u32, [a, b]: [u32; 2]) -> ChainCall {
    match operation {
        16 => ChainCall::Hook { handle, handler: a, parameter: b },
        17 => ChainCall::Unhook { handle },
        18 => ChainCall::List { line: a, place: b },
        19 => ChainCall::GetUsed { handle },
        20 => ChainCall::SetUsed { handle, status: a, call_back: b },
        21 => ChainCall::SpecialCycle { bus, message: a },
        22 => ChainCall::GetRouting { handle },
        _ => ChainCall::SetInterrupt { handle, mode: a },
    }
}

fn long(header: &[u8; HEADER], at: usize) -> u32 {
    header[at..at + 4].iter().fold(0, |number, &byte| number << 8 | u32::from(byte))
}

#[cfg(test)]
mod tests {
    use super::*;
    use crate::editions::named;
    use crate::script_encode::encoded;
    use crate::script_sweep::samples;

    /// Each of the samples, one for each operation, is read as what it was.
    #[test]
    fn there_and_back() {
        for (asked, operation) in samples().iter().zip(1..) {
            let script = encoded(asked);
            assert_eq!(script[0], operation);
            let Ok(read) = front(&script, 4096) else {
                panic!("operation {operation} is malformed");
            };
            assert_eq!(read.call.to_string(), asked.call.to_string());
            assert_eq!(encoded(&read), script);
        }
    }

    fn wrong_with(sample: usize, change: impl Fn(&mut Vec<u8>)) -> Vec<&'static str> {
        let mut script = encoded(&samples()[sample]);
        change(&mut script);
        front(&script, 0).err().unwrap_or_default()
    }

    #[test]
    fn causes() {
        let set = |sample, at: usize, byte| wrong_with(sample, |script| script[at] = byte);
        assert_eq!(wrong_with(0, |script| script.truncate(63)), [SHORT]);
        assert_eq!(wrong_with(0, |script| script.truncate(script.len() - 1)), [NO_ROOM]);
        assert_eq!(set(0, OWN_LENGTH, 0x80), [NO_ROOM]);
        assert_eq!(set(0, 0, 0), [NO_OPERATION]);
        assert_eq!(set(0, 0, 24), [NO_OPERATION]);
        assert_eq!(set(5, 1, 3), [NO_WIDTH]);
        assert_eq!(set(8, 2, 2), [NO_SPACE]);
        for (_, place, cause) in ZEROS {
            assert_eq!(set(1, place.start, 1), [cause]);
            assert_eq!(set(1, place.end - 1, 1), [cause]);
        }
        assert_eq!(set(5, 1, 4), [""; 0]);
    }

    /// Argument c is the edition of searches and data calls, with 0 and 2 exchanged; all others
    /// have none.
    #[test]
    fn editions() {
        for (sample, asked) in samples().iter().enumerate() {
            let read = |at, byte| {
                let mut script = encoded(asked);
                script[at] = byte;
                front(&script, 4096).ok().map(|read| named(&read.call))
            };
            let has_edition = [3, 4, 8, 9, 10].contains(&sample);
            let of = |edition| has_edition.then_some(Some(edition));
            assert_eq!([1, 2, 3].map(|c| read(19, c)), [1, 0, 3].map(of), "{sample}");
            assert_eq!([read(16, 1), read(18, 1)], [1 << 24, 1 << 8].map(of), "{sample}");
            assert_eq!(read(19, 0), Some(has_edition.then_some(2)), "{sample}");
        }
    }
}
