//! Damaged images: broken record rules, wrong trailers, cut and lengthened images, flips.

use crate::boards::{
    clear_base, great_sum, shape, RandomBoard, ENTRIES, FIRST_BASE, FIXED, MASKS, OFFSET_LOW,
};
use crate::random::Random;
use second::board_b1::{image_with_notes, set_window, Shape};
use second::{Record, BASES, FUNCTIONS, RECORD_LENGTH, TRAILER_LENGTH};

/// An image that is likely refused, for one reason or for several.
pub fn damaged(random: &mut Random, board: &RandomBoard) -> Vec<u8> {
    match random.below(36) {
        0..=11 => broken_rule(random, board),
        12..=23 => wrong_trailer(random, board),
        24..=26 => cut(random, board.image()),
        27..=29 => lengthened(random, board.image()),
        30 => great(random, board),
        _ => flipped(random, board.image()),
    }
}

/// A change of a record that breaks one rule alone.
type Break = fn(&mut Random, &mut Record);

const BREAKS: [(&str, Break); 19] = [
    ("vendor", |_, record| record[0..2].fill(0xFF)),
    ("header type", |random, record| record[0x0E] |= 1 << random.below(7)),
    ("pin", |random, record| {
        let any = random.within(5..=255) as u8;
        record[0x3D] = random.pick(&[5, 6, 8, 255, any]);
    }),
    ("mask of a fixed register", |random, record| {
        record[MASKS + random.pick(&FIXED)] |= bit(random)
    }),
    ("value at 30h-33h", |random, record| record[0x30 + random.below(4)] |= bit(random)),
    ("offset", |random, record| record[OFFSET_LOW] |= random.within(1..=3) as u8),
    ("no window, entry", |random, record| {
        let base = without_window(random, record);
        record[ENTRIES + 4 * base + random.within(1..=3)] |= bit(random);
    }),
    ("no window, register", |random, record| {
        let base = without_window(random, record);
        record[FIRST_BASE + 4 * base + random.below(4)] |= bit(random);
    }),
    ("no window, mask", |random, record| {
        let base = without_window(random, record);
        record[MASKS + FIRST_BASE + 4 * base + random.below(4)] |= bit(random);
    }),
    ("exponent above", |random, record| {
        let any = random.within(17..=255) as u8;
        let k = random.pick(&[17, 18, 31, 32, 33, 64, 255, any]);
        odd_exponent(random, record, k);
    }),
    ("exponent 1", |random, record| odd_exponent(random, record, 1)),
    ("memory exponent below", |random, record| {
        let k = random.within(1..=3) as u8;
        let base = random.below(BASES);
        set_window(record, base, Shape { register: 0x8000_0000, k, order: 0, widths: 7 });
    }),
    ("order", |random, record| {
        let base = with_window(random, record);
        record[ENTRIES + 4 * base + 1] = random.pick(&[3, 4, 14, 16, 17, 255]);
    }),
    ("widths 0", |random, record| {
        let base = with_window(random, record);
        record[ENTRIES + 4 * base + 2] = 0;
    }),
    ("widths above 7", |random, record| {
        let base = with_window(random, record);
        let any = random.within(8..=255) as u8;
        record[ENTRIES + 4 * base + 2] = random.pick(&[8, 9, 16, 128, 255, any]);
    }),
    ("fourth byte", |random, record| {
        let base = with_window(random, record);
        record[ENTRIES + 4 * base + 3] = bit(random);
    }),
    ("mask of a window", |random, record| {
        let base = with_window(random, record);
        record[MASKS + FIRST_BASE + 4 * base + random.below(4)] ^= bit(random);
    }),
    ("I/O low bits", |random, record| {
        let k = random.within(2..=16);
        let wrong = random.within(1..=k - 1);
        low_bits(random, record, k, 1 | 1 << wrong);
    }),
    ("memory low bits", |random, record| {
        let k = random.within(4..=16);
        let any = random.within(1..=k - 1);
        let wrong = random.pick(&[1, 2, any, k - 1]);
        let wrong = if wrong == 3 { 2 } else { wrong };
        let bit_3 = random.pick(&[0, 8]);
        low_bits(random, record, k, 1 << wrong | bit_3);
    }),
];

fn bit(random: &mut Random) -> u8 {
    1 << random.below(8)
}

/// Takes the window of some base register away.
fn without_window(random: &mut Random, record: &mut Record) -> usize {
    let base = random.below(BASES);
    clear_base(record, base);
    base
}

/// Gives some base register a window that keeps the rules.
fn with_window(random: &mut Random, record: &mut Record) -> usize {
    let base = random.below(BASES);
    let k = random.within(2..=16) as u8;
    let shape = shape(random, k, &[]);
    set_window(record, base, shape);
    base
}

/// Gives some base register a window of start 0 with an exponent out of range.
fn odd_exponent(random: &mut Random, record: &mut Record, k: u8) {
    let (base, register) = (random.below(BASES), random.pick(&[0, 1]));
    set_window(record, base, Shape { register, k, order: 0, widths: 7 });
}

/// Gives some base register a window with these bits below its exponent.
fn low_bits(random: &mut Random, record: &mut Record, k: usize, bits: u32) {
    let base = random.below(BASES);
    let shape = Shape { register: 0x8000_0000 | bits, k: k as u8, order: 15, widths: 1 };
    set_window(record, base, shape);
}

/// One or two records with one rule broken; the sum is right.
fn broken_rule(random: &mut Random, board: &RandomBoard) -> Vec<u8> {
    let mut records = board.records.clone();
    for _ in 0..random.within(1..=2) {
        let place = random.below(records.len());
        let (_, rule_break) = random.pick(&BREAKS);
        rule_break(random, &mut records[place]);
    }
    image_with_notes(&board.notes, &records)
}

/// One or two fields of the trailer wrong, or a count of 17 with all that goes with it.
fn wrong_trailer(random: &mut Random, board: &RandomBoard) -> Vec<u8> {
    if random.one_in(10) {
        return image_with_notes(&board.notes, &[board.records[0]; FUNCTIONS + 1]);
    }
    let mut image = board.image();
    for _ in 0..random.within(1..=2) {
        match random.below(5) {
            0 => wrong_edition(random, &mut image),
            1 => wrong_count(random, &mut image),
            2 => wrong_distance(random, &mut image),
            3 => wrong_sum(random, &mut image),
            _ => other_count(random, &mut image),
        }
    }
    image
}

fn wrong_edition(random: &mut Random, image: &mut [u8]) {
    put(image, 6, 2, random.pick(&[0, 2, 3, 0x100, 0x101, 0xFFFF]));
}

fn wrong_count(random: &mut Random, image: &mut [u8]) {
    let count = get(image, 4, 2);
    let near = [count + 1, count.wrapping_sub(1), count | 0x100, count << 8];
    let wrong = random.pick(&[0, 17, 255, 0xFFFF]);
    put(image, 4, 2, if random.one_in(2) { wrong } else { random.pick(&near) });
}

fn wrong_distance(random: &mut Random, image: &mut [u8]) {
    let distance = get(image, 0, 4);
    let length = image.len() as u32;
    let near = [1, u32::MAX, 544, 0xFFFF_FDE0, 0x1_0000, 0x8000_0000, 12];
    let wrong = match random.below(4) {
        0 => random.pick(&[0, u32::MAX, 12, length, length + 1]),
        _ => distance.wrapping_add(random.pick(&near)),
    };
    put(image, 0, 4, wrong);
}

fn wrong_sum(random: &mut Random, image: &mut [u8]) {
    let near = [1, u32::MAX, 256, 0x1_0000, 0x100_0000, 0x8000_0000];
    let wrong = get(image, 8, 4).wrapping_add(random.pick(&near));
    put(image, 8, 4, random.pick(&[wrong, wrong, 0, u32::MAX]));
}

/// A count with the distance that belongs to it, and at times the sum of what is there.
fn other_count(random: &mut Random, image: &mut [u8]) {
    let count = random.within(0..=FUNCTIONS + 2);
    put(image, 4, 2, count as u32);
    put(image, 0, 4, (RECORD_LENGTH * count + TRAILER_LENGTH) as u32);
    if random.one_in(2) {
        put_sum_right(image);
    }
}

/// An image with a record sum above 2^21, in the trailer as it is or with one bit changed.
fn great(random: &mut Random, board: &RandomBoard) -> Vec<u8> {
    let mut image = image_with_notes(&board.notes, &great_sum(random.within(0..=4)));
    if random.one_in(2) {
        let wrong = get(&image, 8, 4) ^ 1 << random.below(32);
        put(&mut image, 8, 4, wrong);
    }
    image
}

/// An image that lost bytes at its beginning or at its end.
fn cut(random: &mut Random, image: Vec<u8>) -> Vec<u8> {
    let any = random.below(image.len());
    let lengths = [0, 1, 11, 12, 13, 24, 543, 544, 555, 556, image.len() - 1, any];
    let length = random.pick(&lengths).min(image.len());
    match random.below(3) {
        0 => image[..length].to_vec(),
        _ => image[image.len() - length..].to_vec(),
    }
}

/// An image after so many more notes that its length is about the limit.
fn lengthened(random: &mut Random, image: Vec<u8>) -> Vec<u8> {
    let length = random.pick(&[65_535, 65_536, 65_536, 65_537, 65_537, 65_548, 70_000]);
    let mut longer = vec![random.byte(); length - image.len()];
    longer.extend(image);
    longer
}

/// A few bytes at random, with the sum put right or not.
fn flipped(random: &mut Random, mut image: Vec<u8>) -> Vec<u8> {
    for _ in 0..random.within(1..=3) {
        let at = random.below(image.len());
        image[at] ^= random.within(1..=255) as u8;
    }
    if random.one_in(2) {
        put_sum_right(&mut image);
    }
    image
}

/// Puts the sum of as many records as the count says, or as there are, in the trailer.
fn put_sum_right(image: &mut [u8]) {
    let records = RECORD_LENGTH * get(image, 4, 2) as usize;
    let before = image.len() - TRAILER_LENGTH;
    let bytes = &image[before.saturating_sub(records)..before];
    let sum = bytes.iter().map(|&byte| u32::from(byte)).sum();
    put(image, 8, 4, sum);
}

/// A big-endian field of the trailer.
fn get(image: &[u8], at: usize, width: usize) -> u32 {
    let first = image.len() - TRAILER_LENGTH + at;
    image[first..first + width].iter().fold(0, |number, &byte| number << 8 | u32::from(byte))
}

fn put(image: &mut [u8], at: usize, width: usize, number: u32) {
    let first = image.len() - TRAILER_LENGTH + at;
    image[first..first + width].copy_from_slice(&number.to_be_bytes()[4 - width..]);
}

#[cfg(test)]
mod tests {
    use super::*;
    use second::{check_image, Verdict};

    /// The sum counts all bits: right it lets the first broken rule be found, and wrong in
    /// any bit it does not.
    #[test]
    fn great_sums() {
        for sound in 0..=4 {
            let mut image = image_with_notes(&[], &great_sum(sound));
            let sum = get(&image, 8, 4);
            assert!(sum > 1 << 21, "{sum}");
            assert_eq!(check_image(&image, 0), Verdict { number: 6, place: sound as u32 });
            for bit in 0..32 {
                put(&mut image, 8, 4, sum ^ 1 << bit);
                assert_eq!(check_image(&image, 0), Verdict { number: 5, place: 0 });
            }
        }
    }

    /// The breaks are breaks: each one alone is refused with 6 at its place.
    #[test]
    fn each_break_is_refused() {
        for seed in 0..300 {
            let mut random = Random::new(seed);
            let board = RandomBoard::new(&mut random);
            assert!([0, 7].contains(&check_image(&board.image(), 65_536).number), "{seed}");
            for (name, rule_break) in BREAKS {
                let mut records = board.records.clone();
                let place = random.below(records.len());
                rule_break(&mut random, &mut records[place]);
                let verdict = check_image(&image_with_notes(&board.notes, &records), 65_536);
                assert_eq!((verdict.number, verdict.place), (6, place as u32), "{name}, {seed}");
            }
        }
    }
}
