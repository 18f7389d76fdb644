//! Configuration calls on status (06h and 07h): mostly writes, with values by which the rule of
//! request E2 and plain storage differ.

use crate::access::Access;
use crate::arguments::{current, handle};
use crate::calls::Call;
use crate::parts::Parts;
use crate::random::Random;

pub fn status(random: &mut Random, parts: &Parts) -> Call {
    let access = access(random, parts);
    match random.below(8) {
        0 => Call::ReadConfig(access),
        1 => Call::FastReadConfig(access),
        _ => Call::WriteConfig { access, value: value(random, parts, access) },
    }
}

/// Mostly a byte, word or longword that has status in it; else one beside status, or one that
/// is refused for its register or width.
fn access(random: &mut Random, parts: &Parts) -> Access {
    let sound = random.pick(&[(1, 0x06), (1, 0x07), (2, 0x06), (4, 0x04)]);
    let beside = random.pick(&[(1, 0x05), (2, 0x04), (1, 0x08), (4, 0x08)]);
    let refused = random.pick(&[(2, 0x05), (2, 0x07), (4, 0x05), (4, 0x06), (4, 0x07), (3, 0x06)]);
    let (width, register) = match random.below(10) {
        0 => refused,
        1 | 2 => beside,
        _ => sound,
    };
    Access { width, handle: handle(random, parts), register }
}

/// 0, all ones, what is read there, one bit, or any. Half of the longwords keep the command or
/// change one bit of it, so that not all of them close windows.
fn value(random: &mut Random, parts: &Parts, access: Access) -> u32 {
    let (read, any) = (current(parts, access), random.long());
    let bit = 1 << random.below(8 * access.width as usize);
    let value = random.pick(&[0, u32::MAX, read, read, bit, any, any]);
    if access.width != 4 || random.one_in(2) {
        return value;
    }
    let changed = read ^ 1 << random.below(16);
    let command = random.pick(&[read, changed]);
    value & 0xFFFF_0000 | command & 0xFFFF
}
