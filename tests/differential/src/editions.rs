//! The edition that the caller of a search or data call names.

use crate::calls::Call;
use crate::random::Random;
use second::{DRAFT_1_9, LATER_TEXT};

pub fn is_known(call_edition: u32) -> bool {
    [DRAFT_1_9, LATER_TEXT].contains(&call_edition)
}

/// The edition that a call names, where it names one.
pub fn named(call: &Call) -> Option<u32> {
    match call {
        Call::FindPciDevice { call_edition, .. } | Call::FindPciClasscode { call_edition, .. } => {
            Some(*call_edition)
        }
        Call::ReadData(access) | Call::FastReadData(access) | Call::WriteData { access, .. } => {
            Some(access.call_edition)
        }
        _ => None,
    }
}

/// Each of the two equally often; at times another, which for some would be one of the two if
/// the number were cut.
pub fn call_edition(random: &mut Random) -> u32 {
    let (known, any) = (random.pick(&[DRAFT_1_9, LATER_TEXT]), random.long());
    let unknown = [
        0,
        0,
        3,
        known + 0x100,
        known + 0x1_0000,
        known + 0x8000_0000,
        0x100,
        0x8000_0000,
        u32::MAX,
        any,
    ];
    match random.one_in(6) {
        true => random.pick(&unknown),
        false => known,
    }
}
