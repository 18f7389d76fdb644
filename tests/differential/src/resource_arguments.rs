//! Arguments of the calls on descriptors: buffers about as long as they must be, bytes to
//! walk over, and positions in them.

use crate::arguments::handle;
use crate::calls::Call;
use crate::model::Second;
use crate::random::Random;
use crate::resource_case::ResourceCase;
use second::DESCRIPTOR_LENGTH;

pub fn resource(random: &mut Random, second: &Second) -> Call {
    let handle = handle(random, &second.parts);
    let needed = ResourceCase::new(&second.parts, handle).needed();
    let (any, more) = (random.below(140), random.within(1..=DESCRIPTOR_LENGTH + 1));
    let length = match random.below(8) {
        0..=2 => needed,
        3 => needed.saturating_sub(1),
        4 => needed + more,
        5 => random.pick(&[0, 19, 20, 119, 120]),
        _ => any,
    };
    Call::GetResource { handle, out: random.bytes(length) }
}

/// Descriptors in a row, each as long as its next field says where that is not too long,
/// and some bytes more; or any bytes.
pub fn descriptors(random: &mut Random) -> Vec<u8> {
    let any = random.below(90);
    if random.one_in(6) {
        return random.bytes(any);
    }
    let mut bytes = Vec::new();
    for _ in 0..random.within(1..=6) {
        bytes.extend(descriptor(random));
    }
    let more = random.below(2 * DESCRIPTOR_LENGTH + 2);
    bytes.extend(random.bytes(more));
    bytes
}

fn descriptor(random: &mut Random) -> Vec<u8> {
    let (any, below) = (random.long() as u16, random.below(DESCRIPTOR_LENGTH) as u16);
    let next = random.pick(&[20, 20, 20, 20, 20, 21, 24, 40, 19, below, 0x0114, any]);
    let mut bytes = random.bytes(usize::from(next).clamp(DESCRIPTOR_LENGTH, 60));
    bytes[..2].copy_from_slice(&next.to_be_bytes());
    bytes[2] &= 0x7F;
    if random.one_in(5) {
        bytes[2] |= 0x80;
    }
    bytes
}

/// A position about where 20 bytes remain, about the end, anywhere, or one to which no 20
/// can be added.
pub fn position(random: &mut Random, length: usize) -> usize {
    let (inside, near) = (random.below(length + 1), random.below(DESCRIPTOR_LENGTH + 2));
    match random.below(6) {
        0 => length.saturating_sub(DESCRIPTOR_LENGTH),
        1 => (length + 1).saturating_sub(DESCRIPTOR_LENGTH),
        2 => inside,
        3 => length + near,
        4 => usize::MAX - near,
        _ => random.pick(&[length.saturating_sub(1), 1 << 31, 1 << 32, 1 << 63, usize::MAX]),
    }
}
