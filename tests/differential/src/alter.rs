//! Boards that a caller altered.

use crate::boards::{ENTRIES, MASKS, OFFSET_LOW};
use crate::parts::Parts;
use crate::random::Random;
use exports::REGISTERS;
use second::{BASES, FUNCTIONS, RECORD_LENGTH, WINDOWS};

/// Alters one to three of the lent parts in a way that no call does.
pub fn alter(random: &mut Random, parts: &mut Parts, cells: usize) {
    for _ in 0..random.within(1..=3) {
        match random.below(16) {
            0 => header(random, parts),
            1 => exponents(random, parts),
            2 => record_bytes(random, parts),
            3 => registers(random, parts),
            4 => windows(random, parts),
            5 | 6 => kept_window(random, parts),
            7 => cell_offsets(random, parts, cells),
            8 => first_cells(random, parts, cells),
            9 => orders_and_widths(random, parts),
            10 => longs(random, &mut parts.hooks),
            11 | 12 => hooks(random, parts),
            13 => offsets(random, parts),
            14 => about_status(random, parts),
            _ => longs(random, &mut parts.used),
        }
    }
}

fn header(random: &mut Random, parts: &mut Parts) {
    let any = random.long();
    let count = random.within(0..=FUNCTIONS) as u32;
    parts.header[0] = random.pick(&[0, 15, 16, 17, 255, 0x1_0000, u32::MAX, any, count, count]);
    if random.one_in(2) {
        longs(random, &mut parts.header[1..]);
    }
}

/// The entry of a base register in the records, by its place among all.
fn entry(slot: usize) -> usize {
    slot / BASES * RECORD_LENGTH + ENTRIES + 4 * (slot % BASES)
}

/// Exponents that no image has, and any others, at some places or at all.
fn exponents(random: &mut Random, parts: &mut Parts) {
    let sparse = random.pick(&[1, 6, 40]);
    for slot in (0..WINDOWS).filter(|_| random.one_in(sparse)).collect::<Vec<_>>() {
        let at = entry(slot);
        let any = random.byte();
        let inside = random.within(2..=16) as u8;
        parts.records[at] = random.pick(&[0, 1, 2, 3, 16, 17, 32, 64, 255, any, inside, inside]);
    }
}

/// Byte orders and widths that no image has, and any others, at some places or at all.
fn orders_and_widths(random: &mut Random, parts: &mut Parts) {
    let sparse = random.pick(&[1, 2, 6]);
    for slot in (0..WINDOWS).filter(|_| random.one_in(sparse)).collect::<Vec<_>>() {
        let at = entry(slot);
        let (any, bits) = (random.byte(), random.byte() & 0xF8);
        parts.records[at + 1] = random.pick(&[0, 1, 2, 3, 14, 15, 16, 0x11, 0x12, 0x82, any]);
        parts.records[at + 2] =
            random.pick(&[7, bits | 7, bits | 1, bits | 2, bits | 4, bits, any]);
    }
}

/// Offsets that are no multiples of 4, as no image has them.
fn offsets(random: &mut Random, parts: &mut Parts) {
    for record in parts.records.chunks_mut(RECORD_LENGTH) {
        record[OFFSET_LOW] ^= random.below(4) as u8;
    }
}

/// Status and the registers beside it with any bits and masks, 08h too, which no image has.
fn about_status(random: &mut Random, parts: &mut Parts) {
    for record in parts.records.chunks_mut(RECORD_LENGTH) {
        random.fill(&mut record[MASKS + 0x05..=MASKS + 0x08]);
    }
    for registers in parts.registers.chunks_mut(REGISTERS) {
        random.fill(&mut registers[0x05..=0x08]);
    }
}

fn record_bytes(random: &mut Random, parts: &mut Parts) {
    if random.one_in(4) {
        return random.fill(&mut parts.records);
    }
    for _ in 0..random.within(1..=200) {
        parts.records[random.below(FUNCTIONS * RECORD_LENGTH)] = random.byte();
    }
}

fn registers(random: &mut Random, parts: &mut Parts) {
    if random.one_in(4) {
        return random.fill(&mut parts.registers);
    }
    for _ in 0..random.within(1..=60) {
        parts.registers[random.below(FUNCTIONS * REGISTERS)] = random.byte();
    }
}

/// Kept numbers at random, with bits above the fields, without a length or 0.
fn windows(random: &mut Random, parts: &mut Parts) {
    match random.below(5) {
        0 => parts.windows.fill_with(|| random.number()),
        1 => parts.windows.fill_with(|| random.number() | 1 << 4),
        2 => parts.windows[any_or_listed(random, parts)] = 0,
        3 => parts.windows[any_or_listed(random, parts)] &= !(0x1_FFFF << 1),
        _ => {
            for _ in 0..random.within(1..=10) {
                parts.windows[random.below(8)] ^= 1 << random.below(64);
            }
        }
    }
}

/// A place among the kept numbers, in half of the cases one of the list.
fn any_or_listed(random: &mut Random, parts: &Parts) -> usize {
    let end = random.pick(&[WINDOWS, parts.listed().len()]);
    random.below(end)
}

/// One kept window with another base register, handle, start, length or mark, in its place
/// or before it, so that both may hold an address.
fn kept_window(random: &mut Random, parts: &mut Parts) {
    let at = random.below(parts.listed().len());
    let number = parts.windows[at];
    let (field, width) = random.pick(&[(18, 3), (18, 3), (21, 5), (26, 6), (1, 17), (0, 1)]);
    let mask = ((1 << width) - 1) << field;
    let mut other = number ^ random.number() & mask;
    if random.one_in(3) {
        other |= 6 << 18;
    }
    if random.one_in(2) {
        parts.windows[at..].rotate_right(1);
    }
    parts.windows[at] = other;
}

/// Some entries of the hook array without their handle, as another one, in another place,
/// or with any handle and the handlers that stand there.
fn hooks(random: &mut Random, parts: &mut Parts) {
    let (entries, _) = parts.hooks.as_chunks_mut::<3>();
    let handles = random.within(1..=FUNCTIONS + 2);
    for _ in 0..random.within(1..=4) {
        let (one, other) = (random.below(FUNCTIONS), random.below(FUNCTIONS));
        match random.below(6) {
            0 | 1 => entries[one][0] = 0,
            2 => entries[one] = entries[other],
            3 => entries.swap(one, other),
            4 => entries[one] = [random.below(handles) as u32, random.long(), random.long()],
            _ => entries.iter_mut().for_each(|entry| {
                if entry[0] == 0 {
                    *entry = [random.below(handles) as u32, random.long(), random.long()];
                }
            }),
        }
    }
}

/// Offsets at random; often the total alone, about the length of the cell buffer.
fn cell_offsets(random: &mut Random, parts: &mut Parts, cells: usize) {
    let cells = cells as u32;
    match random.below(4) {
        0 => longs(random, &mut parts.cell_offsets),
        1 => parts.cell_offsets[WINDOWS] = random.pick(&[0, 1, 65_537, u32::MAX]),
        _ => parts.cell_offsets[WINDOWS] = random.pick(&[cells, cells + 1, cells / 2]),
    }
}

/// Some windows' cells begin about the end of the cell buffer, or so far off that a sum of
/// 32 bits would wrap; at times with another total that fits, so that data calls get there.
fn first_cells(random: &mut Random, parts: &mut Parts, cells: usize) {
    for slot in (0..WINDOWS).filter(|_| random.one_in(2)).collect::<Vec<_>>() {
        let back = random.below(24) as u32;
        let end = random.pick(&[cells as u32, cells as u32, parts.cell_offsets[WINDOWS], 0]);
        parts.cell_offsets[slot] = end.wrapping_sub(back);
    }
    if random.one_in(3) {
        parts.cell_offsets[WINDOWS] = random.below(cells + 1) as u32;
    }
}

/// Some of the numbers, or all, at random.
fn longs(random: &mut Random, numbers: &mut [u32]) {
    let sparse = random.pick(&[1, 4]);
    for number in numbers {
        if random.one_in(sparse) {
            *number = match random.one_in(2) {
                true => random.long(),
                false => random.below(20) as u32,
            };
        }
    }
}
