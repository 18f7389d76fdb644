//! Board B1's list and its cases P1 to P14.

use super::{fresh_b1, listed};
use crate::board_b1::b1_image;
use crate::data::read_cells;
use crate::Space::Memory;
use crate::Width::{Byte, Long, Word};
use crate::{Walker, LATER_TEXT};

#[test]
fn b1_list() {
    assert_eq!(b1_image().len(), 1100);
    let (board, _) = fresh_b1();
    let lines = [
        "mem 80000000 00000400 1 0 clear",
        "mem 80000400 00000400 2 0 clear",
        "io 00000100 00000010 2 1 clear",
    ];
    assert_eq!(listed(&board), lines);
}

#[test]
fn p1_to_p5_searches() {
    let (mut board, _) = fresh_b1();
    assert_eq!(board.find_pci_device(0x0001_0F0F, 1, LATER_TEXT), 2);
    assert_eq!(board.find_pci_device(0x0001_0F0F, 2, LATER_TEXT), -4);
    assert_eq!(board.find_pci_device(0x0000_FFFF, 0, LATER_TEXT), 1);
    assert_eq!(board.find_pci_classcode(0x0111_8055, 0, LATER_TEXT), 1);
    assert_eq!(board.find_pci_classcode(0x0011_8055, 0, LATER_TEXT), -4);
    // Further searches: the index is not cut, FFFFh is an ordinary device ID.
    assert_eq!(board.find_pci_device(0x0001_0F0F, 65_536, LATER_TEXT), -4);
    assert_eq!(board.find_pci_device(0x1234_FFFF, 1, LATER_TEXT), 2);
    assert_eq!(board.find_pci_device(0xFFFF_0F0F, 0, LATER_TEXT), -4);
    assert_eq!(board.find_pci_classcode(0xF811_8000, 1, LATER_TEXT), 2);
    assert_eq!(board.find_pci_classcode(0x0455_8000, 0, LATER_TEXT), 1);
    assert_eq!(board.find_pci_classcode(0x0211_5500, 0, LATER_TEXT), 1);
    assert_eq!(board.find_pci_classcode(0x0211_5501, 0, LATER_TEXT), -4);
    assert_eq!(board.find_pci_classcode(0x07AB_CDEF, 2, LATER_TEXT), -4);
    board.registers[0][2] = 9;
    assert_eq!(board.find_pci_device(0x0001_0F0F, 0, LATER_TEXT), 2);
}

#[test]
fn p6_to_p8_base_registers() {
    let (mut board, _) = fresh_b1();
    assert_eq!(board.write_config(1, 0x10, Long, 0xFFFF_FFFF), 0);
    assert_eq!(board.read_config(1, 0x10, Long), (0, 0xFFFF_FC00));
    let (mut board, _) = fresh_b1();
    assert_eq!(board.write_config(1, 0x11, Byte, 0x12), 0);
    assert_eq!(board.read_config(1, 0x10, Long), (0, 0x8000_1000));
    let (mut board, _) = fresh_b1();
    assert_eq!(board.write_config(2, 0x14, Long, 0xFFFF_FFFF), 0);
    assert_eq!(board.read_config(2, 0x14, Long), (0, 0xFFFF_FFF1));
}

#[test]
fn p9_and_p10_whose_window() {
    let (board, mut cells) = fresh_b1();
    let before = cells.clone();
    let write = |cells: &mut Vec<u8>, at| {
        board.write_data(cells, Memory, 1, at, Long, 0x0102_0304, LATER_TEXT)
    };
    assert_eq!(write(&mut cells, 0x8000_0400), -8);
    assert_eq!(cells, before);
    assert_eq!(write(&mut cells, 0x8000_03FC), 0);
    assert_eq!(cells[0x3FC..0x400], [1, 2, 3, 4]);
    assert_eq!(cells[..0x3FC], before[..0x3FC]);
    assert_eq!(cells[0x400..], before[0x400..]);
}

#[test]
fn p11_contested_and_cleared() {
    let (mut board, _) = fresh_b1();
    let before = board.clone();
    assert_eq!(board.write_config(2, 0x10, Long, 0x8000_0000), 0);
    let lines = [
        "mem 80000000 00000400 1 0 contested",
        "mem 80000000 00000400 2 0 contested",
        "io 00000100 00000010 2 1 clear",
    ];
    assert_eq!(listed(&board), lines);
    assert_eq!(board.write_config(2, 0x10, Long, 0x8000_0400), 0);
    assert_eq!(board, before);
}

#[test]
fn p12_flags() {
    let (board, _) = fresh_b1();
    let mut out = [0; 40];
    assert_eq!(board.get_resource(2, &mut out), 0);
    let mut walker = Walker::new(&out);
    assert_eq!(walker.step().map(|d| d.flags), Some(0x0701));
    assert_eq!(walker.step().map(|d| d.flags), Some(0xC102));
    assert_eq!(walker.step(), None);
}

#[test]
fn p13_byte_orders() {
    let cells = [0x11, 0x22, 0x33, 0x44];
    assert_eq!(read_cells(&cells, 1, 0, Word), Some(0x3344));
    assert_eq!(read_cells(&cells, 1, 0, Byte), Some(0x44));
    assert_eq!(read_cells(&cells, 2, 0, Long), Some(0x4433_2211));
}

#[test]
fn p14_chain() {
    let (mut board, _) = fresh_b1();
    assert_eq!(board.hook_interrupt(2, 0x20, 0x21), 0);
    assert_eq!(board.hook_interrupt(1, 0x10, 0x11), 0);
    assert_eq!(board.list_chain(5, 0), (0, 2, 0x20, 0x21));
    assert_eq!(board.list_chain(5, 1), (0, 1, 0x10, 0x11));
    assert_eq!(board.list_chain(5, 2), (-4, 0, 0, 0));
}
