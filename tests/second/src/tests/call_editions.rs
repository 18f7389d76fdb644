//! Request E1: searches and data calls by draft 1.9 and by the later text.

use super::{board_of, fresh_b1, loaded, record_with, refused_in};
use crate::board_b1::b1_image;
use crate::Space::{Io, Memory};
use crate::Width::{Byte, Long, Word};
use crate::{Board, DRAFT_1_9, LATER_TEXT};

const UNKNOWN: [u32; 7] = [0, 3, 0x101, 0x102, 0x1_0001, 0x8000_0002, u32::MAX];

#[test]
fn draft_device_search() {
    let (mut board, _) = fresh_b1();
    let find = |board: &Board, id, index| board.find_pci_device(id, index, DRAFT_1_9);
    assert_eq!(find(&board, 0x0F0F_0001, 0), 1);
    assert_eq!(find(&board, 0x0F0F_0001, 1), 2);
    assert_eq!(find(&board, 0x0F0F_0001, 2), -4);
    assert_eq!(find(&board, 0x0F0F_0001, 65_536), -4);
    assert_eq!(find(&board, 0x0001_0F0F, 0), -4);
    // FFFFh is an ordinary device ID, and no vendor at all.
    assert_eq!(find(&board, 0x0000_FFFF, 0), -4);
    assert_eq!(find(&board, 0x0F0F_FFFF, 0), -4);
    assert_eq!(find(&board, 0xFFFE_0001, 0), -4);
    for board in [&board, &Board::new()] {
        assert_eq!(find(board, 0xFFFF_0001, 0), -3);
        assert_eq!(find(board, 0xFFFF_FFFF, 2), -3);
        assert_eq!(find(board, 0x0F0F_0001, 2), -4);
    }
    board.registers[1][0..4].copy_from_slice(&[0xFE, 0xFF, 0xFF, 0xFF]);
    assert_eq!(find(&board, 0xFFFE_FFFF, 0), 2);
    board.registers[1][0] = 0xFF;
    assert_eq!(find(&board, 0xFFFF_FFFF, 0), -3);
}

#[test]
fn draft_class_search() {
    let (board, _) = fresh_b1();
    let find = |class, index| board.find_pci_classcode(class, index, DRAFT_1_9);
    assert_eq!((find(0x0011_8000, 0), find(0x0011_8000, 1), find(0x0011_8000, 2)), (1, 2, -4));
    assert_eq!((find(0xFF11_8000, 0), find(0xFF11_8000, 1), find(0xFF11_8000, 2)), (1, 2, -4));
    // No byte can be ignored.
    assert_eq!((find(0x0111_8055, 0), find(0x0111_8000, 0)), (-4, 1));
    assert_eq!((find(0x0211_5500, 0), find(0x0211_8000, 0)), (-4, 1));
    assert_eq!((find(0x0455_8000, 0), find(0x0411_8000, 0)), (-4, 1));
    assert_eq!(find(0x07AB_CDEF, 0), -4);
    assert_eq!(Board::new().find_pci_classcode(0x0011_8000, 0, DRAFT_1_9), -4);
}

#[test]
fn searches_agree_with_halves_exchanged() {
    let (board, _) = fresh_b1();
    for index in 0..3 {
        for (vendor, device) in [(0x0F0F, 1), (1, 0x0F0F), (0x0F0F, 0xFFFF), (0xFFFE, 1), (0, 0)] {
            let later = board.find_pci_device(device << 16 | vendor, index, LATER_TEXT);
            assert_eq!(board.find_pci_device(vendor << 16 | device, index, DRAFT_1_9), later);
        }
        for class in [0x11_8000, 0x11_8001, 0x11_8100, 0x12_8000, 0, 0xFF_FFFF] {
            let later = board.find_pci_classcode(class, index, LATER_TEXT);
            assert_eq!(board.find_pci_classcode(class, index, DRAFT_1_9), later);
        }
    }
}

#[test]
fn unknown_editions_come_before_all_else() {
    let (mut board, cells) = fresh_b1();
    // Both memory windows are contested.
    board.write_config(2, 0x10, Long, 0x8000_0000);
    for call_edition in UNKNOWN {
        for board in [&board, &Board::new()] {
            for id in [0x0001_0F0F, 0x0F0F_0001, 0xFFFF_0001, 0x0001_FFFF, 0xFFFF_FFFF] {
                assert_eq!(board.find_pci_device(id, 0, call_edition), -2);
                assert_eq!(board.find_pci_device(id, 9, call_edition), -2);
            }
            assert_eq!(board.find_pci_classcode(0x0011_8000, 0, call_edition), -2);
            assert_eq!(board.find_pci_classcode(0x07AB_CDEF, 9, call_edition), -2);
            for handle in [0, 1, 2, 9, u32::MAX] {
                for cells in [&cells[..], &cells[..2063], &[]] {
                    let refused = |space, address, width| {
                        refused_in(call_edition, board, cells, space, handle, address, width)
                    };
                    assert_eq!(refused(Memory, 0x8000_0000, Long), -2);
                    assert_eq!(refused(Memory, 0x8000_0001, Word), -2);
                    assert_eq!(refused(Io, 0x100, Byte), -2);
                    assert_eq!(refused(Io, 0x110, Byte), -2);
                }
            }
        }
    }
}

/// B1 with the offset F0000000h at handle 1: bus 80000000h is CPU 70000000h.
fn b1_with_offset() -> (Board, Vec<u8>) {
    let mut image = b1_image();
    // The sum was 0E88h.
    image[536] = 0xF0;
    image[1096..].copy_from_slice(&[0, 0, 0x0F, 0x78]);
    loaded(&image)
}

#[test]
fn draft_addresses_are_cpu_addresses() {
    let (board, mut cells) = b1_with_offset();
    let write = |cells: &mut Vec<u8>, handle, at, call_edition| {
        board.write_data(cells, Memory, handle, at, Long, 0x0102_0304, call_edition)
    };
    let before = cells.clone();
    let refused = |handle, at| refused_in(DRAFT_1_9, &board, &before, Memory, handle, at, Long);
    assert_eq!((refused(1, 0x6FFF_FFFC), refused(1, 0x7000_0400)), (-8, -8));
    assert_eq!((refused(1, 0x8000_0000), refused(1, 0x8000_03FC)), (-8, -8));
    assert_eq!((refused(1, 0x7000_0002), refused(1, 0xF000_0000)), (-8, -8));
    assert_eq!(write(&mut cells, 1, 0x7000_03FC, DRAFT_1_9), 0);
    assert_eq!(cells[0x3FC..0x400], [1, 2, 3, 4]);
    assert_eq!(cells[..0x3FC], before[..0x3FC]);
    assert_eq!(cells[0x400..], before[0x400..]);
    // The later text has it at the bus address, and only there.
    let later = |at| board.read_data(&cells, Memory, 1, at, Long, LATER_TEXT);
    assert_eq!((later(0x8000_03FC), later(0x7000_03FC)), ((0, 0x0102_0304), (-8, 0)));
    let draft = |at, width| board.read_data(&cells, Memory, 1, at, width, DRAFT_1_9);
    assert_eq!(draft(0x7000_03FC, Long), (0, 0x0102_0304));
    assert_eq!((draft(0x7000_03FF, Byte), draft(0x7000_03FE, Word)), ((0, 1), (0, 0x0102)));
    let fast = |at| board.fast_read_data(&cells, Memory, 1, at, Long, DRAFT_1_9);
    assert_eq!((fast(0x7000_0000), fast(0x7000_03FC)), ((0, false), (0x0102_0304, false)));
    // Handle 2 has the offset 0: its addresses are the same in both.
    assert_eq!((refused(2, 0x7000_0400), refused(2, 0x8000_03FC)), (-8, -8));
    assert_eq!(write(&mut cells, 2, 0x8000_0400, DRAFT_1_9), 0);
    assert_eq!(cells[0x400..0x404], [1, 2, 3, 4]);
    assert_eq!(write(&mut cells, 2, 0x8000_07FC, LATER_TEXT), 0);
    assert_eq!(cells[0x7FC..0x800], [1, 2, 3, 4]);
}

#[test]
fn draft_addresses_wrap() {
    // Memory at the end of the space, and I/O from 100h on: CPU 0 and 500h.
    let mut record = record_with(&[(0xFFFF_FC00, 10), (0x101, 4)]);
    record[536..540].copy_from_slice(&[0, 0, 4, 0]);
    let (board, mut cells) = board_of(&[record]);
    let write = |cells: &mut Vec<u8>, space, at, value| {
        board.write_data(cells, space, 1, at, Byte, value, DRAFT_1_9)
    };
    assert_eq!(write(&mut cells, Memory, 0, 0x11), 0);
    assert_eq!(write(&mut cells, Memory, 0x3FF, 0x22), 0);
    assert_eq!(write(&mut cells, Io, 0x500, 0x33), 0);
    assert_eq!(write(&mut cells, Io, 0x50F, 0x44), 0);
    assert_eq!((cells[0], cells[0x3FF], cells[0x400], cells[0x40F]), (0x11, 0x22, 0x33, 0x44));
    assert_eq!(board.read_data(&cells, Memory, 1, 0xFFFF_FC00, Byte, LATER_TEXT), (0, 0x11));
    assert_eq!(board.read_data(&cells, Io, 1, 0x10F, Byte, LATER_TEXT), (0, 0x44));
    let refused = |space, at| refused_in(DRAFT_1_9, &board, &cells, space, 1, at, Byte);
    assert_eq!((refused(Memory, u32::MAX), refused(Memory, 0x400)), (-8, -8));
    assert_eq!((refused(Memory, 0xFFFF_FC00), refused(Io, 0x100)), (-8, -8));
    assert_eq!((refused(Io, 0x4FF), refused(Io, 0x510)), (-8, -8));
}

#[test]
fn draft_order_of_checks() {
    let (mut board, cells) = b1_with_offset();
    let refused = |board: &Board, cells: &[u8], handle, at, width| {
        refused_in(DRAFT_1_9, board, cells, Memory, handle, at, width)
    };
    assert_eq!(refused(&board, &cells[..2063], 9, 0x7000_0001, Word), -9);
    assert_eq!(refused(&board, &cells[..2063], 1, 0x7000_0001, Word), -7);
    assert_eq!(refused(&board, &cells, 1, 0x7000_0001, Word), -8);
    board.records[0][514] = 4;
    assert_eq!(refused(&board, &cells, 1, 0x7000_0400, Word), -8);
    assert_eq!(refused(&board, &cells, 1, 0x7000_03FE, Word), -2);
    board.write_config(2, 0x10, Long, 0x8000_0000);
    assert_eq!(refused(&board, &cells, 1, 0x7000_03FE, Word), -8);
    assert_eq!(refused(&Board::new(), &[], 1, 0x7000_0000, Long), -9);
}

/// The offset is the one kept, though no image has it; alignment is that of the bus address.
#[test]
fn altered_offsets() {
    let (mut board, mut cells) = fresh_b1();
    board.records[0][539] = 2;
    let value = 0x0102_0304;
    assert_eq!(board.write_data(&mut cells, Memory, 1, 0x8000_0002, Long, value, DRAFT_1_9), 0);
    assert_eq!(cells[..4], [1, 2, 3, 4]);
    assert_eq!(board.read_data(&cells, Memory, 1, 0x8000_0000, Long, LATER_TEXT), (0, value));
    assert_eq!(board.read_data(&cells, Memory, 1, 0x8000_0004, Word, DRAFT_1_9), (0, 0x0102));
    assert_eq!(board.read_data(&cells, Memory, 1, 0x8000_0401, Byte, DRAFT_1_9), (0, 0));
    let refused =
        |handle, at, width| refused_in(DRAFT_1_9, &board, &cells, Memory, handle, at, width);
    assert_eq!((refused(1, 0x8000_0000, Long), refused(1, 0x8000_0004, Long)), (-8, -8));
    assert_eq!((refused(1, 0x8000_0001, Byte), refused(1, 0x8000_0402, Byte)), (-8, -8));
    // Records that no handle has play no part.
    board.records[2][536..540].fill(0xFF);
    for handle in [0, 3, 9, u32::MAX] {
        assert_eq!(refused_in(DRAFT_1_9, &board, &[], Memory, handle, 0, Long), -9);
    }
}
