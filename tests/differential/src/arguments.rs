//! Arguments of searches and configuration calls, and how much to lend, chosen with regard
//! to the board so that the cases that matter come up often.

use crate::access::Access;
use crate::boards::FIRST_BASE;
use crate::calls::Call;
use crate::editions::call_edition;
use crate::parts::Parts;
use crate::random::Random;
use crate::status_arguments::status;
use exports::REGISTERS;
use second::{BASES, DRAFT_1_9, FUNCTIONS, RECORD_LENGTH};

/// The class code begins here, with the programming interface.
const CLASS: usize = 0x09;

pub fn search(random: &mut Random, parts: &Parts) -> Call {
    let (index, call_edition) = (index(random, parts), call_edition(random));
    if random.one_in(2) {
        let class_code = class_code(random, parts);
        return Call::FindPciClasscode { class_code, index, call_edition };
    }
    let id = id(random, parts);
    // Mostly with the halves where the edition has them.
    let id = match (call_edition == DRAFT_1_9) != random.one_in(8) {
        true => id.rotate_left(16),
        false => id,
    };
    Call::FindPciDevice { id, index, call_edition }
}

/// A configuration call; most are writes, and many of them move a window or are to status.
pub fn configuration(random: &mut Random, parts: &Parts) -> Call {
    if random.one_in(4) {
        return status(random, parts);
    }
    let access = match random.one_in(3) {
        true => base_of_window(random, parts),
        false => access(random, parts),
    };
    match random.below(6) {
        0 => Call::ReadConfig(access),
        1 => Call::FastReadConfig(access),
        _ => Call::WriteConfig { access, value: value(random, parts, access) },
    }
}

/// How much to lend: all, just enough for so many cells, one less, or any part.
pub fn lent(random: &mut Random, whole: usize, cells: usize) -> usize {
    let any = random.below(whole);
    let lent = match random.below(12) {
        0 => cells,
        1 => cells.saturating_sub(1),
        2 => any,
        _ => whole,
    };
    lent.min(whole)
}

/// As many as can match, or numbers that must not be cut to so few.
fn index(random: &mut Random, parts: &Parts) -> u32 {
    let (count, any) = (parts.header[0], random.long());
    match random.below(8) {
        0..=2 => 0,
        3..=5 => random.within(0..=parts.functions()) as u32,
        6 => random.within(0..=FUNCTIONS) as u32,
        _ => random.pick(&[count, count.wrapping_add(1), 256, 65_536, 65_537, u32::MAX, any]),
    }
}

/// The ID of a function of the board, with another vendor or device, or with vendor FFFFh, as
/// the later text has it.
fn id(random: &mut Random, parts: &Parts) -> u32 {
    let own = u32::from_le_bytes(registers_at(random, parts, 0x00));
    let (any, in_vendor, in_device) = (random.long(), random.below(16), random.within(16..=31));
    match random.below(10) {
        0..=2 => own,
        3 => own | 0xFFFF,
        4 => any | 0xFFFF,
        5 => (own | 0xFFFF) ^ 1 << in_vendor,
        6 => own ^ 1 << in_vendor,
        7 => own ^ 1 << in_device,
        8 => own | 0xFFFF_0000,
        _ => random.pick(&[u32::MAX, 0, any]),
    }
}

/// The class of a function of the board, with bytes changed and some of bits 24 to 31.
fn class_code(random: &mut Random, parts: &Parts) -> u32 {
    let [interface, sub, base, _] = registers_at(random, parts, CLASS);
    let (any, one) = (random.byte(), 1 << random.below(8));
    let bits = random.pick(&[0, 0, any, any, one, 1, 2, 4, 7, 0xF8]);
    let mut bytes = [interface, sub, base, bits];
    for byte in &mut bytes[..3] {
        match random.below(8) {
            0 => *byte ^= 1 << random.below(8),
            1 => *byte = random.byte(),
            _ => {}
        }
    }
    u32::from_le_bytes(bytes)
}

/// Four registers from the given one on, of a function or at times of a place past them.
fn registers_at(random: &mut Random, parts: &Parts, register: usize) -> [u8; 4] {
    let place = match random.one_in(8) {
        true => random.below(FUNCTIONS),
        false => random.below(parts.functions()),
    };
    four(&parts.registers, REGISTERS * place + register)
}

fn access(random: &mut Random, parts: &Parts) -> Access {
    let width = width(random);
    let register = register(random);
    // Mostly a register that the width allows.
    let register = match (width, random.one_in(6)) {
        (2, false) => register & 0xFE,
        (4, false) => register & 0xFC,
        _ => register,
    };
    Access { width, handle: handle(random, parts), register }
}

/// The whole base register of a kept window, or any where none is kept.
fn base_of_window(random: &mut Random, parts: &Parts) -> Access {
    let (handle, base) = match parts.listed() {
        windows if windows.is_empty() => (handle(random, parts), random.below(BASES) as u32),
        windows => {
            let window = random.pick(&windows);
            (window.handle, window.base)
        }
    };
    Access { width: 4, handle, register: (FIRST_BASE as u32 + 4 * base) as u8 }
}

/// Mostly one that can be asked.
pub fn width(random: &mut Random) -> u32 {
    let any = random.long();
    match random.one_in(20) {
        true => random.pick(&[0, 3, 5, 6, 8, 16, 0x101, 0x102, 0x104, 0x1_0001, u32::MAX, any]),
        false => random.pick(&[1, 2, 4]),
    }
}

/// Mostly a good handle; else one just outside, or one that is good only if it is cut.
pub fn handle(random: &mut Random, parts: &Parts) -> u32 {
    let good = random.within(1..=parts.functions().max(1)) as u32;
    let (count, any) = (parts.header[0], random.long());
    match random.below(6) {
        0 => random.pick(&[
            0,
            count,
            count.wrapping_add(1),
            FUNCTIONS as u32 + 1,
            0x101,
            0x100 + good,
            0x1_0000 + good,
            0x8000_0000 + good,
            u32::MAX,
            any,
        ]),
        _ => good,
    }
}

/// Any register; often the command, base registers, the line and the last ones.
fn register(random: &mut Random) -> u8 {
    let base = (FIRST_BASE + random.below(4 * BASES)) as u8;
    let (near, any) = (random.below(4) as u8, random.byte());
    random.pick(&[any, any, any, base, base, base, 0x04, 0x04 + near, 0x3C + near, 0xFC + near])
}

/// A value for the addressed bytes: all of a kind, any, one bit off what stands there,
/// what was loaded there, or the start of a window near another.
fn value(random: &mut Random, parts: &Parts, access: Access) -> u32 {
    let register = usize::from(access.register);
    let at = RECORD_LENGTH * place(access) + register;
    match random.below(8) {
        0 => 0,
        1 => u32::MAX,
        2 => random.long(),
        3 => current(parts, access) ^ 1 << random.below(16),
        4 => u32::from_le_bytes(four(&parts.records, at)),
        _ => start(random, parts) >> (8 * (register % 4)),
    }
}

/// What stands at an access's register and the three after it; where the handle is bad, of a
/// function that it would be if it were cut.
pub fn current(parts: &Parts, access: Access) -> u32 {
    let at = REGISTERS * place(access) + usize::from(access.register);
    u32::from_le_bytes(four(&parts.registers, at))
}

fn place(access: Access) -> usize {
    (access.handle as usize).wrapping_sub(1) % FUNCTIONS
}

/// The start of a kept window or of one that meets it or lies beside it, with or without
/// the bits of I/O and prefetching.
fn start(random: &mut Random, parts: &Parts) -> u32 {
    let windows = parts.listed();
    let Some(other) = (!windows.is_empty()).then(|| random.pick(&windows)) else {
        return random.long();
    };
    let inside = random.below(other.length as usize) as u32;
    let length = 1 << random.within(2..=16);
    let start = match random.below(6) {
        0..=2 => other.start,
        3 => other.start.wrapping_add(other.length),
        4 => other.start.wrapping_sub(length),
        _ => other.start.wrapping_add(inside),
    };
    start | random.pick(&[0, 0, 1, 8])
}

/// The bytes at a place; 0 past the end.
fn four(bytes: &[u8], at: usize) -> [u8; 4] {
    [0, 1, 2, 3].map(|next| bytes.get(at + next).copied().unwrap_or(0))
}
