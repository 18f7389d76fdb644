//! Data calls: order of checks and byte orders.

use super::{board_of, fresh_b1, record_with, refused_in};
use crate::board_b1::{image_of, plain_record, set_window, Shape};
use crate::data::{read_cells, write_cells};
use crate::Space::{Io, Memory};
use crate::Width::{Byte, Long, Word};
use crate::{Board, Space, Width, DRAFT_1_9, LATER_TEXT};

/// The refusal of both editions; they agree, the offset being 0.
fn refused(
    board: &Board,
    cells: &[u8],
    space: Space,
    handle: u32,
    address: u32,
    width: Width,
) -> i32 {
    let number = refused_in(LATER_TEXT, board, cells, space, handle, address, width);
    assert_eq!(refused_in(DRAFT_1_9, board, cells, space, handle, address, width), number);
    number
}

#[test]
fn order_of_checks() {
    let (mut board, cells) = fresh_b1();
    for handle in [0, 3, 0x101, u32::MAX] {
        assert_eq!(refused(&board, &[], Memory, handle, 1, Word), -9);
    }
    assert_eq!(refused(&board, &cells[..2063], Memory, 1, 1, Word), -7);
    assert_eq!(refused(&board, &cells, Memory, 1, 0x8000_0001, Word), -8);
    assert_eq!(refused(&board, &cells, Memory, 1, 0x8000_0002, Long), -8);
    assert_eq!(refused(&board, &cells, Memory, 1, 0x7FFF_FFFF, Byte), -8);
    assert_eq!(refused(&board, &cells, Memory, 2, 0x8000_03FF, Byte), -8);
    assert_eq!(refused(&board, &cells, Io, 1, 0x100, Byte), -8);
    assert_eq!(refused(&board, &cells, Io, 1, 0x8000_0000, Byte), -8);
    assert_eq!(refused(&board, &cells, Memory, 2, 0x100, Byte), -8);
    assert_eq!(refused(&board, &cells, Io, 2, 0x101, Word), -8);
    assert_eq!(refused(&board, &cells, Io, 2, 0x110, Word), -8);
    assert_eq!(refused(&board, &cells, Io, 2, 0x100, Word), -2);
    assert_eq!(refused(&board, &cells, Io, 2, 0x10C, Long), -2);
    assert_eq!(board.read_data(&cells[..2064], Io, 2, 0x10F, Byte, LATER_TEXT), (0, 0));
    board.write_config(2, 0x10, Long, 0x8000_0000);
    assert_eq!(refused(&board, &cells, Memory, 1, 0x8000_0000, Byte), -8);
    // Contested comes before the width.
    let mut narrow = plain_record();
    let shape = Shape { register: 0x101, k: 4, order: 0, widths: 1 };
    set_window(&mut narrow, 0, shape);
    let (board, cells) = board_of(&[narrow, narrow]);
    assert_eq!(refused(&board, &cells, Io, 1, 0x100, Long), -8);
    assert_eq!(refused(&Board::new(), &[], Io, 1, 0x100, Long), -9);
}

#[test]
fn each_width_is_offered_by_its_bit() {
    for widths in 1..8 {
        let mut record = plain_record();
        let shape = Shape { register: 0x8000, k: 4, order: 0, widths };
        set_window(&mut record, 0, shape);
        let mut board = Board::new();
        let mut cells = [0; 16];
        assert_eq!(board.load(&image_of(&[record]), &mut cells).number, 0);
        for (bit, width) in [Byte, Word, Long].into_iter().enumerate() {
            let expected = if widths >> bit & 1 == 1 { 0 } else { -2 };
            let read = board.read_data(&cells, Memory, 1, 0x8004, width, LATER_TEXT);
            assert_eq!(read, (expected, 0));
            let write = board.write_data(&mut cells, Memory, 1, 0x8008, width, 0, LATER_TEXT);
            assert_eq!(write, expected);
        }
    }
}

#[test]
fn byte_orders_by_cell() {
    let cells = [0x10, 0x11, 0x12, 0x13, 0x14, 0x15, 0x16, 0x17];
    let reads = |order, width: Width| -> Vec<u32> {
        let distances = (0..8).step_by(width.bytes());
        distances.map(|o| read_cells(&cells, order, o, width).unwrap()).collect()
    };
    for order in [0, 15, 2, 3] {
        assert_eq!(reads(order, Byte), [0x10, 0x11, 0x12, 0x13, 0x14, 0x15, 0x16, 0x17]);
    }
    for order in [0, 15, 3] {
        assert_eq!(reads(order, Word), [0x1011, 0x1213, 0x1415, 0x1617]);
        assert_eq!(reads(order, Long), [0x1011_1213, 0x1415_1617]);
    }
    assert_eq!(reads(1, Byte), [0x13, 0x12, 0x11, 0x10, 0x17, 0x16, 0x15, 0x14]);
    assert_eq!(reads(1, Word), [0x1213, 0x1011, 0x1617, 0x1415]);
    assert_eq!(reads(1, Long), [0x1011_1213, 0x1415_1617]);
    assert_eq!(reads(2, Word), [0x1110, 0x1312, 0x1514, 0x1716]);
    assert_eq!(reads(2, Long), [0x1312_1110, 0x1716_1514]);
}

#[test]
fn a_write_is_read_back() {
    for order in [0, 1, 2, 15] {
        for width in [Byte, Word, Long] {
            for distance in (0..12).step_by(width.bytes()) {
                let mut cells = [0xEE; 12];
                assert!(write_cells(&mut cells, order, distance, width, 0x8123_4567));
                let low = 0x8123_4567 & width.all_ones();
                assert_eq!(read_cells(&cells, order, distance, width), Some(low));
                let changed = cells.iter().filter(|&&cell| cell != 0xEE).count();
                assert_eq!(changed, width.bytes());
            }
        }
    }
}

#[test]
fn windows_have_their_own_cells() {
    let first = record_with(&[(0x8000, 4), (0x101, 4)]);
    let second = record_with(&[(0x9000, 4)]);
    let (mut board, mut cells) = board_of(&[first, second]);
    assert_eq!(board.write_data(&mut cells, Memory, 1, 0x8000, Long, 0x0102_0304, LATER_TEXT), 0);
    assert_eq!(board.write_data(&mut cells, Io, 1, 0x10E, Word, 0xFFFF_0506, LATER_TEXT), 0);
    assert_eq!(board.write_data(&mut cells, Memory, 2, 0x9001, Byte, 0xFFFF_FF07, LATER_TEXT), 0);
    assert_eq!(cells[..4], [1, 2, 3, 4]);
    assert_eq!(cells[30..34], [5, 6, 0, 7]);
    // A moved window keeps its cells.
    board.write_config(2, 0x10, Long, 0xA000);
    assert_eq!(board.read_data(&cells, Memory, 2, 0xA000, Word, LATER_TEXT), (0, 7));
    assert_eq!(board.fast_read_data(&cells, Memory, 2, 0xA001, Byte, LATER_TEXT), (7, false));
}
