//! Request E2: status bits are cleared by writing 1 and left by writing 0.

use super::{fresh_b1, loaded};
use crate::board_b1::b1_image;
use crate::Width::{Byte, Long, Word};
use crate::{Board, Verdict, Width};

/// B1's image with 05h 04h (mask 05h), 06h B0h (mask 30h), 07h F9h (mask F9h) at handle 1.
fn status_image() -> Vec<u8> {
    let mut image = b1_image();
    image[0x05..0x08].copy_from_slice(&[0x04, 0xB0, 0xF9]);
    image[0x105..0x108].copy_from_slice(&[0x05, 0x30, 0xF9]);
    // The sum was 0E88h; the six bytes add 2DBh.
    image[1096..].copy_from_slice(&[0, 0, 0x11, 0x63]);
    image
}

fn b1_with_status() -> (Board, Vec<u8>) {
    loaded(&status_image())
}

/// Command and status of handle 1.
fn command_and_status(board: &Board) -> u32 {
    let (number, value) = board.read_config(1, 0x04, Long);
    assert_eq!(number, 0);
    value
}

#[test]
fn ones_clear_and_zeros_leave() {
    let (mut board, mut cells) = b1_with_status();
    assert_eq!(command_and_status(&board), 0xF9B0_0403);
    let writes = [
        (0x06, Word, 0x2010, 0xD9A0_0403),
        (0x06, Word, 0x0000, 0xD9A0_0403),
        (0x05, Byte, 0x00FF, 0xD9A0_0503),
        (0x04, Long, 0xFFFF_0003, 0x0080_0003),
        // No write sets a bit again.
        (0x06, Word, 0x0000, 0x0080_0003),
        (0x06, Word, 0xFFFF, 0x0080_0003),
        (0x07, Byte, 0x00F9, 0x0080_0003),
        (0x04, Long, 0xF9B0_0403, 0x0080_0403),
    ];
    for (register, width, value, after) in writes {
        assert_eq!(board.write_config(1, register, width, value), 0);
        assert_eq!(command_and_status(&board), after, "{value:x} to {register:x}");
    }
    assert_eq!(board.reset(&mut cells), 0);
    assert_eq!(command_and_status(&board), 0xF9B0_0403);
}

/// The word written to status and what is left of F9B0h, where the masks are F930h.
const WORDS: [(u32, u32); 9] = [
    (0x0000, 0xF9B0),
    (0xFFFF, 0x0080),
    // Document 002 clears bit 14 alone so.
    (0x4000, 0xB9B0),
    (0x2010, 0xD9A0),
    (0x0030, 0xF980),
    (0xF900, 0x00B0),
    (0x8001, 0x79B0),
    (0x06CF, 0xF9B0),
    (0xF9B0, 0x0080),
];

#[test]
fn all_widths_clear_alike() {
    let after = |writes: &[(u8, Width, u32)]| {
        let (mut board, _) = b1_with_status();
        for &(register, width, value) in writes {
            assert_eq!(board.write_config(1, register, width, value), 0);
        }
        command_and_status(&board)
    };
    for (word, left) in WORDS {
        let left = left << 16 | 0x0403;
        let (low, high) = ((0x06, Byte, word & 0xFF), (0x07, Byte, word >> 8));
        assert_eq!(after(&[(0x06, Word, word)]), left, "{word:x}");
        assert_eq!(after(&[(0x06, Word, 0xFFFF_0000 | word)]), left, "{word:x}");
        assert_eq!((after(&[low, high]), after(&[high, low])), (left, left), "{word:x}");
        assert_eq!(after(&[(0x04, Long, word << 16 | 0x0403)]), left, "{word:x}");
    }
    // A byte clears in its own register only, and command writes clear nothing.
    assert_eq!(after(&[(0x06, Byte, 0xFFFF_FFFF)]), 0xF980_0403);
    assert_eq!(after(&[(0x07, Byte, 0xFFFF_FFFF)]), 0x00B0_0403);
    assert_eq!(after(&[(0x04, Word, 0xFFFF_FFFF)]), 0xF9B0_0503);
    assert_eq!(after(&[(0x05, Byte, 0xFFFF_FFFA)]), 0xF9B0_0003);
}

#[test]
fn reads_and_refused_writes_clear_nothing() {
    let (mut board, _) = b1_with_status();
    let before = board.clone();
    let reads =
        [(0x04, Long, 0xF9B0_0403), (0x06, Word, 0xF9B0), (0x06, Byte, 0xB0), (0x07, Byte, 0xF9)];
    for (register, width, value) in reads {
        assert_eq!(board.read_config(1, register, width), (0, value));
        assert_eq!(board.fast_read_config(1, register, width), (value, false));
    }
    assert_eq!(board.write_config(1, 0x05, Word, 0xFFFF), -5);
    assert_eq!(board.write_config(1, 0x07, Word, 0xFFFF), -5);
    assert_eq!(board.write_config(1, 0x06, Long, u32::MAX), -5);
    assert_eq!(board.write_config(0, 0x06, Word, 0xFFFF), -9);
    assert_eq!(board.write_config(3, 0x06, Word, 0xFFFF), -9);
    assert_eq!(board, before);
}

/// Status C795h with masks B63Ch: 8614h is set and masked, 4181h set and not masked.
#[test]
fn what_was_read_clears_itself() {
    let (mut fresh, _) = fresh_b1();
    fresh.registers[0][0x06..0x08].copy_from_slice(&[0x95, 0xC7]);
    fresh.records[0][0x106..0x108].copy_from_slice(&[0x3C, 0xB6]);
    for (register, width, after) in [
        (0x04, Long, 0x4181_0003),
        (0x06, Word, 0x4181_0003),
        (0x06, Byte, 0xC781_0003),
        (0x07, Byte, 0x4195_0003),
    ] {
        let mut board = fresh.clone();
        let (_, value) = board.read_config(1, register, width);
        assert_eq!(board.write_config(1, register, width, value), 0);
        assert_eq!(command_and_status(&board), after);
        assert_eq!(board.write_config(1, register, width, value), 0);
        assert_eq!(command_and_status(&board), after);
    }
}

/// Old 0Fh, mask 33h and written 55h have every combination of the three bits: the mask rule
/// gives 1Dh, the status rule 0Eh. Only an altered board has a mask at 08h.
#[test]
fn no_other_register_is_status() {
    let (mut fresh, _) = fresh_b1();
    fresh.registers[0].fill(0x0F);
    fresh.records[0][256..512].fill(0x33);
    for (width, value) in [(Byte, 0x55), (Word, 0x5555), (Long, 0x5555_5555)] {
        for register in (0..=255).step_by(width.bytes()) {
            let mut board = fresh.clone();
            assert_eq!(board.write_config(1, register, width, value), 0);
            let first = usize::from(register);
            for (at, &byte) in board.registers[0].iter().enumerate() {
                let after = match at {
                    _ if at < first || at >= first + width.bytes() => 0x0F,
                    0x06 | 0x07 => 0x0E,
                    _ => 0x1D,
                };
                assert_eq!(byte, after, "{register:x} {width:?} at {at:x}");
            }
        }
    }
}

#[test]
fn nothing_else_changes() {
    let (mut board, _) = b1_with_status();
    for register in [0x06, 0x07] {
        board.registers[1][register] = 0xFF;
        board.records[1][0x100 + register] = 0xFF;
    }
    // A list that no write to status works out afresh.
    board.list[0].start = 12;
    let mut expected = board.clone();
    assert_eq!(board.write_config(1, 0x06, Word, 0xFFFF), 0);
    expected.registers[0][0x06..0x08].copy_from_slice(&[0x80, 0x00]);
    assert_eq!(board, expected);
    assert_eq!(board.read_config(2, 0x04, Long), (0, 0xFFFF_0003));
    assert_eq!(board.write_config(2, 0x06, Word, 0x1248), 0);
    expected.registers[1][0x06..0x08].copy_from_slice(&[0xB7, 0xED]);
    assert_eq!(board, expected);
}

#[test]
fn the_loaded_status_comes_back() {
    let (mut board, mut cells) = b1_with_status();
    let before = board.clone();
    for again in [false, true] {
        assert_eq!(board.write_config(1, 0x04, Long, 0xFFFF_0000), 0);
        assert_eq!(command_and_status(&board), 0x0080_0000);
        let mut out = [0; 1100];
        assert_eq!(board.write_image(&mut out), 0);
        assert_eq!(out[..], status_image());
        if again {
            assert_eq!(board.load(&out, &mut cells), Verdict::default());
        } else {
            assert_eq!(board.reset(&mut cells), 0);
        }
        assert_eq!(board, before);
    }
}
