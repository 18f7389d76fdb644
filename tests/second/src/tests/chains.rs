//! Interrupt chains and used marks.

use super::{board_of, fresh_b1};
use crate::board_b1::plain_record;
use crate::Width::Byte;
use crate::{Board, Record};

fn record_on(line: u8, pin: u8) -> Record {
    let mut record = plain_record();
    record[0x3C] = line;
    record[0x3D] = pin;
    record
}

fn chain(board: &Board, line: u32) -> Vec<u32> {
    let answers = (0..).map(|place| board.list_chain(line, place));
    answers.take_while(|a| a.0 == 0).map(|a| a.1).collect()
}

#[test]
fn hook_numbers() {
    let records = [record_on(5, 0), record_on(16, 1), record_on(15, 4), record_on(255, 1)];
    let (mut board, _) = board_of(&records);
    let before = board.clone();
    assert_eq!(board.hook_interrupt(0, 1, 1), -9);
    assert_eq!(board.hook_interrupt(5, 1, 1), -9);
    assert_eq!(board.hook_interrupt(1, 1, 1), -8);
    assert_eq!(board.hook_interrupt(2, 1, 1), -8);
    assert_eq!(board.hook_interrupt(4, 1, 1), -8);
    // A write to 3Ch does not make a bad line good.
    board.write_config(2, 0x3C, Byte, 3);
    assert_eq!(board.hook_interrupt(2, 1, 1), -8);
    assert_eq!((board.unhook_interrupt(5), board.unhook_interrupt(3)), (-9, -8));
    assert_eq!(board.hooks, before.hooks);
    assert_eq!(board.hook_interrupt(3, 0, 0), 0);
    assert_eq!(board.hook_interrupt(3, 1, 1), -6);
    assert_eq!(board.list_chain(15, 0), (0, 3, 0, 0));
    assert_eq!(board.list_chain(15, 1), (-4, 0, 0, 0));
    assert_eq!(board.list_chain(16, 0), (-8, 0, 0, 0));
    assert_eq!(board.list_chain(u32::MAX, 0), (-8, 0, 0, 0));
    assert_eq!(board.list_chain(15, u32::MAX), (-4, 0, 0, 0));
}

#[test]
fn hooks_are_not_rerouted() {
    let (mut board, _) = fresh_b1();
    assert_eq!(board.hook_interrupt(1, 10, 11), 0);
    board.write_config(1, 0x3C, Byte, 7);
    board.write_config(2, 0x3C, Byte, 7);
    assert_eq!(board.hook_interrupt(2, 20, 21), 0);
    assert_eq!((chain(&board, 5), chain(&board, 7)), (vec![1, 2], vec![]));
    assert_eq!(board.unhook_interrupt(1), 0);
    assert_eq!(board.list_chain(5, 0), (0, 2, 20, 21));
    assert_eq!(board.hook_interrupt(1, 30, 31), 0);
    assert_eq!(chain(&board, 5), [2, 1]);
    assert_eq!(board.list_chain(5, 1), (0, 1, 30, 31));
}

#[test]
fn lines_are_kept_in_order() {
    let records: Vec<Record> = (0..16).map(|i| record_on(i % 3, 1)).collect();
    let (mut board, _) = board_of(&records);
    for handle in (1..=16).rev() {
        assert_eq!(board.hook_interrupt(handle, handle + 100, handle + 200), 0);
    }
    assert_eq!(chain(&board, 0), [16, 13, 10, 7, 4, 1]);
    assert_eq!(chain(&board, 1), [14, 11, 8, 5, 2]);
    assert_eq!(chain(&board, 2), [15, 12, 9, 6, 3]);
    let kept = board.hooks.map(|hook| hook.handle);
    assert_eq!(kept, [16, 13, 10, 7, 4, 1, 14, 11, 8, 5, 2, 15, 12, 9, 6, 3]);
    assert_eq!(board.unhook_interrupt(7), 0);
    assert_eq!(board.unhook_interrupt(7), -8);
    assert_eq!(chain(&board, 0), [16, 13, 10, 4, 1]);
    assert_eq!(board.hooks[15].handle, 0);
    assert_eq!(board.list_chain(2, 4), (0, 3, 103, 203));
    (1..=16).for_each(|handle| assert_eq!(board.unhook_interrupt(handle) == 0, handle != 7));
    assert_eq!(board.hooks, Board::new().hooks);
}

#[test]
fn used_marks() {
    let (mut board, _) = fresh_b1();
    assert_eq!(board.get_card_used(1), (0, 0, 0));
    assert_eq!(board.set_card_used(3, 9, 0), -9);
    assert_eq!(board.set_card_used(1, 4, 0), -8);
    assert_eq!(board.set_card_used(1, u32::MAX, 0), -8);
    for (status, kept) in [(2, 77), (1, 0), (3, 0), (2, 77), (0, 0)] {
        assert_eq!(board.set_card_used(2, status, 77), 0);
        assert_eq!(board.get_card_used(2), (0, status, kept));
        assert_eq!(board.set_card_used(2, 4, 5), -8);
        assert_eq!(board.get_card_used(2), (0, status, kept));
    }
    assert_eq!(board.get_card_used(1), (0, 0, 0));
    assert_eq!((board.get_card_used(0), board.get_card_used(3)), ((-9, 0, 0), (-9, 0, 0)));
}
