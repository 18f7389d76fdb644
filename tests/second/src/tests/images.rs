//! Image check, load, reset, writer.

use super::{board_of, fresh_b1, loaded, record_with, LENT};
use crate::board_b1::{b1_image, b1_records, image_of, image_with_notes, plain_record};
use crate::Width::{Byte, Long};
use crate::{check_image, Board, Record, Verdict};

fn verdict(number: u32, place: u32) -> Verdict {
    Verdict { number, place }
}

fn checked(image: &[u8]) -> Verdict {
    check_image(image, 65_536)
}

/// B1's image with bytes of its trailer set, from the given one on.
fn with_trailer(at: usize, bytes: &[u8]) -> Vec<u8> {
    let mut image = b1_image();
    let first = image.len() - 12 + at;
    image[first..first + bytes.len()].copy_from_slice(bytes);
    image
}

#[test]
fn refusals_one_to_five() {
    let trailer = |count: u8, distance: u8| [0, 0, distance, 0x2C, 0, count, 0, 1, 0, 0, 0, 0];
    assert_eq!(checked(&[]), verdict(1, 0));
    assert_eq!(checked(&[0; 11]), verdict(1, 0));
    assert_eq!(checked(&[0; 12]), verdict(2, 0));
    assert_eq!(checked(&trailer(0, 2)), verdict(3, 0));
    assert_eq!(checked(&trailer(17, 2)), verdict(3, 0));
    // 22Ch is 544 + 12: right for one record, but past this image.
    assert_eq!(checked(&trailer(1, 2)), verdict(4, 0));
    assert_eq!(checked(&with_trailer(6, &[0, 2])), verdict(2, 0));
    assert_eq!(checked(&with_trailer(6, &[1, 1])), verdict(2, 0));
    assert_eq!(checked(&with_trailer(4, &[0, 0])), verdict(3, 0));
    assert_eq!(checked(&with_trailer(4, &[0, 17])), verdict(3, 0));
    assert_eq!(checked(&with_trailer(4, &[1, 2])), verdict(3, 0));
    assert_eq!(checked(&with_trailer(4, &[0, 1])), verdict(4, 0));
    assert_eq!(checked(&with_trailer(0, &[0, 0, 4, 0x4D])), verdict(4, 0));
    assert_eq!(checked(&b1_image()[1..]), verdict(4, 0));
    assert_eq!(checked(&with_trailer(8, &[0, 0, 0, 0])), verdict(5, 0));
    // The first that applies: edition, then count, then distance, then sum.
    assert_eq!(checked(&with_trailer(0, &[9; 12])), verdict(2, 0));
    let wrong = [9, 9, 9, 9, 9, 9, 0, 1, 9, 9, 9, 9];
    assert_eq!(checked(&with_trailer(0, &wrong)), verdict(3, 0));
    assert_eq!(checked(&with_trailer(0, &[9, 9, 9, 9, 0, 2, 0, 1, 9])), verdict(4, 0));
}

#[test]
fn notes_and_lengths() {
    let notes = vec![7; 65_536 - 1100];
    let longest = image_with_notes(&notes, &b1_records());
    assert_eq!(longest.len(), 65_536);
    assert_eq!(checked(&longest), verdict(0, 0));
    let longer = [&[7], &longest[..]].concat();
    assert_eq!(checked(&longer), verdict(1, 0));
    // A whole other image, trailer and all, is a note like any other.
    let other = image_of(&[plain_record(); 3]);
    let (board, _) = loaded(&image_with_notes(&other, &b1_records()));
    assert_eq!(board, fresh_b1().0);
    assert_eq!(checked(&image_with_notes(&b1_image()[1088..], &b1_records())), verdict(0, 0));
    assert_eq!(checked(&image_of(&[plain_record(); 16])), verdict(0, 0));
}

/// Sets a byte of B1's second record and checks the whole image.
fn changed(at: usize, value: u8) -> u32 {
    let mut records = b1_records();
    records[1][at] = value;
    let found = checked(&image_of(&records));
    assert_eq!(found.place, if found.number == 6 { 1 } else { 0 });
    found.number
}

#[test]
fn header_and_mask_rules() {
    let mut records = b1_records();
    records[1][0..2].fill(0xFF);
    assert_eq!(checked(&image_of(&records)), verdict(6, 1));
    records[0][0x3D] = 5;
    assert_eq!(checked(&image_of(&records)), verdict(6, 0));
    assert_eq!(changed(0x00, 0xFF), 0);
    (0..7).for_each(|bit| assert_eq!(changed(0x0E, 1 << bit), 6));
    assert_eq!(changed(0x0E, 0x80), 0);
    assert_eq!((changed(0x3D, 0), changed(0x3D, 4)), (0, 0));
    assert_eq!((changed(0x3D, 5), changed(0x3D, 0xFF)), (6, 6));
    let fixed = [0, 1, 2, 3, 8, 9, 10, 11, 0x0E, 0x3D];
    for register in (0..256).filter(|r| !(0x10..0x28).contains(r)) {
        let expected = match fixed.contains(&register) || (0x2C..0x34).contains(&register) {
            true => 6,
            false => 0,
        };
        assert_eq!(changed(256 + register, 0x80), expected, "mask {register:x}");
    }
    (0x30..0x34).for_each(|register| assert_eq!(changed(register, 1), 6));
    for register in [0x2F, 0x34, 0x28, 0x3C, 0xFF] {
        assert_eq!(changed(register, 1), 0);
    }
    (1..4).for_each(|low| assert_eq!(changed(539, low), 6));
    assert_eq!((changed(539, 4), changed(536, 0xFF), changed(543, 1)), (0, 0, 0));
}

#[test]
fn window_entry_rules() {
    // Base 2 has k = 0: entry, register and mask are zero.
    for at in [521, 522, 523, 0x18, 0x19, 0x1A, 0x1B, 0x118, 0x119, 0x11A, 0x11B] {
        assert_eq!(changed(at, 0x80), 6, "byte {at}");
    }
    // Base 0 is memory of k 10, base 1 I/O of k 4.
    for base in [0, 1] {
        let entry = 512 + 4 * base;
        (0..256).for_each(|order| {
            let fits = [0, 1, 2, 15].contains(&order);
            assert_eq!(changed(entry + 1, order as u8) == 0, fits);
        });
        (0..256).for_each(|widths| {
            assert_eq!(changed(entry + 2, widths as u8) == 0, (1..8).contains(&widths));
        });
        assert_eq!(changed(entry + 3, 1), 6);
        assert_eq!((changed(entry, 0), changed(entry, 11), changed(entry, 9)), (6, 6, 6));
        (0..4).for_each(|byte| assert_eq!(changed(0x110 + 4 * base + byte, 0x08), 6));
    }
    assert_eq!(changed(0x10, 0x08), 0);
    [1, 2, 4, 5, 6, 7].into_iter().for_each(|bit| assert_eq!(changed(0x10, 1 << bit), 6));
    assert_eq!((changed(0x11, 5), changed(0x11, 6), changed(0x11, 8)), (6, 6, 0));
    (1..4).for_each(|bit| assert_eq!(changed(0x14, 1 | 1 << bit), 6));
    // Bit 0 alone makes it the other space, here with nothing else amiss.
    assert_eq!((changed(0x10, 1), changed(0x14, 0), changed(0x14, 0x11)), (0, 0, 0));
}

#[test]
fn length_exponents() {
    let number = |register, k| checked(&image_of(&[record_with(&[(register, k)])])).number;
    for k in 1..=20 {
        let (memory, io) = ((4..=16).contains(&k), (2..=16).contains(&k));
        assert_eq!(number(0x8000_0000, k) == 0, memory, "memory {k}");
        assert_eq!(number(0x8000_0001, k) == 0, io, "I/O {k}");
    }
    assert_eq!((number(0, 4), number(1, 2), number(0x8000_0000, 255)), (0, 0, 6));
}

#[test]
fn totals_and_lent_cells() {
    let full = record_with(&[(0x10_0000, 16)]);
    assert_eq!(checked(&image_of(&[full])), verdict(0, 0));
    assert_eq!(check_image(&image_of(&[full]), 65_535), verdict(8, 0));
    let small = record_with(&[(1, 2)]);
    assert_eq!(checked(&image_of(&[full, small])), verdict(7, 0));
    assert_eq!(check_image(&image_of(&[full, small]), 0), verdict(7, 0));
    assert_eq!(check_image(&image_of(&[full, full]), 1 << 20), verdict(7, 0));
    let halves = record_with(&[(0, 15), (1, 15)]);
    assert_eq!(checked(&image_of(&[halves])), verdict(0, 0));
    // A broken rule comes before the total.
    let mut broken = small;
    broken[539] = 1;
    assert_eq!(check_image(&image_of(&[full, broken]), 0), verdict(6, 1));
    assert_eq!(check_image(&b1_image(), 2064), verdict(0, 0));
    assert_eq!(check_image(&b1_image(), 2063), verdict(8, 0));
    assert_eq!(check_image(&image_of(&[plain_record()]), 0), verdict(0, 0));
}

#[test]
fn load_is_by_the_image_alone() {
    let many: Vec<Record> = (0..16).map(|i| record_with(&[(0x1000 * i + 0x1000, 12)])).collect();
    let (mut board, mut cells) = board_of(&many);
    assert_eq!(cells, [0; 65_536]);
    assert_eq!(board.hook_interrupt(16, 1, 2), 0);
    assert_eq!(board.set_card_used(16, 2, 3), 0);
    cells.fill(LENT);
    let before = board.clone();
    assert_eq!(board.load(&b1_image(), &mut cells[..2063]), verdict(8, 0));
    assert_eq!((&board, &cells), (&before, &vec![LENT; 65_536]));
    assert_eq!(board.load(&b1_image(), &mut cells), verdict(0, 0));
    assert_eq!((board, cells), fresh_b1());
    let (board, cells) = fresh_b1();
    assert_eq!(board.cell_offsets[..8], [0, 1024, 1024, 1024, 1024, 1024, 1024, 2048]);
    assert!(board.cell_offsets[8..].iter().all(|&offset| offset == 2064));
    assert!(cells[..2064].iter().all(|&cell| cell == 0));
    assert!(cells[2064..].iter().all(|&cell| cell == LENT));
}

#[test]
fn reset_goes_back_to_the_load() {
    let mut empty = Board::new();
    assert_eq!(empty.reset(&mut []), 0);
    assert_eq!(empty, Board::new());
    let (mut board, mut cells) = fresh_b1();
    board.write_config(2, 0x10, Long, 0x8000_0000);
    board.write_config(1, 0x3C, Byte, 9);
    board.hook_interrupt(1, 1, 1);
    board.set_card_used(2, 1, 0);
    cells.fill(LENT);
    let before = board.clone();
    assert_eq!(board.reset(&mut cells[..2063]), -7);
    assert_eq!((&board, &cells), (&before, &vec![LENT; 65_536]));
    assert_eq!(board.reset(&mut cells), 0);
    assert_eq!((board, cells), fresh_b1());
}

#[test]
fn writer() {
    let mut out = [LENT; 1105];
    assert_eq!(Board::new().write_image(&mut out[..11]), 1);
    assert_eq!(Board::new().write_image(&mut out[..12]), 3);
    let (mut board, _) = loaded(&image_with_notes(b"notes", &b1_records()));
    board.write_config(1, 0x10, Long, 0);
    assert_eq!(board.write_image(&mut out[..1099]), 1);
    assert_eq!(out, [LENT; 1105]);
    assert_eq!(board.write_image(&mut out), 0);
    assert_eq!(out[..1100], b1_image());
    assert_eq!(out[1100..], [LENT; 5]);
}
