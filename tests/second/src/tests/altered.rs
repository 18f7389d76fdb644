//! States that a caller altered: read as they stand, and never a panic.

use super::{fresh_b1, listed, Numbers};
use crate::Space::{Io, Memory};
use crate::Width::{Byte, Long, Word};
use crate::{check_image, Board, Hook, KeptWindow, Verdict, LATER_TEXT};

#[test]
fn altered_counts_and_lists() {
    let (mut board, cells) = fresh_b1();
    board.count = u32::MAX;
    assert_eq!(board.read_config(16, 0, Byte), (0, 0));
    assert_eq!(board.read_config(17, 0, Byte), (-9, 0));
    let mut out = vec![0; 544 * 16 + 12];
    assert_eq!(board.write_image(&mut out[1..]), 1);
    assert_eq!(board.write_image(&mut out), 0);
    assert_eq!(out[544 * 16..][..8], [0, 0, 0x22, 0x0C, 0, 16, 0, 1]);
    // A zero length in the middle ends the list, for data calls too.
    board.list[1].length = 0;
    assert_eq!(listed(&board).len(), 1);
    assert_eq!(board.read_data(&cells, Io, 2, 0x100, Byte, LATER_TEXT), (-8, 0));
    // A window of a base register that no function has is passed over.
    board.list[0] = KeptWindow { length: u32::MAX, base: 6, ..board.list[0] };
    assert_eq!(board.read_data(&cells, Memory, 1, u32::MAX, Byte, LATER_TEXT), (-8, 0));
    board.list[0].contested = true;
    board.list[1] = KeptWindow { base: 0, contested: false, ..board.list[0] };
    assert_eq!(board.read_data(&cells, Memory, 1, 0x8000_0400, Byte, LATER_TEXT), (0, 0));
    board.list[0] = board.list[1];
    assert_eq!(board.read_data(&cells, Memory, 1, u32::MAX, Byte, LATER_TEXT), (-7, 0));
    assert_eq!(board.read_data(&cells, Memory, 1, 0x8000_0400, Byte, LATER_TEXT), (0, 0));
    board.list[0].contested = true;
    assert_eq!(board.read_data(&cells, Memory, 1, u32::MAX, Byte, LATER_TEXT), (-8, 0));
}

#[test]
fn reset_takes_all_places() {
    let (mut board, mut cells) = fresh_b1();
    board.records[15][0x40] = 0x77;
    board.registers[9][0x41] = 0x78;
    assert_eq!(board.reset(&mut cells), 0);
    assert_eq!(board.registers[15][0x40], 0x77);
    assert_eq!(board.registers[9], [0; 256]);
    board.count = 0;
    board.registers[0][0] = 1;
    assert_eq!(board.reset(&mut cells), 0);
    assert_eq!(board.registers[0][..2], [0x0F, 0x0F]);
}

#[test]
fn altered_records() {
    let (mut board, mut cells) = fresh_b1();
    cells[..4].copy_from_slice(&[1, 2, 3, 4]);
    board.records[0][513] = 0x11;
    board.records[0][514] = 0xF9;
    assert_eq!(board.read_data(&cells, Memory, 1, 0x8000_0000, Byte, LATER_TEXT), (0, 1));
    assert_eq!(board.read_data(&cells, Memory, 1, 0x8000_0000, Word, LATER_TEXT), (-2, 0));
    let mut out = [0; 20];
    assert_eq!(board.get_resource(1, &mut out), 0);
    assert_eq!(out[2..4], [0x81, 0x00]);
    board.records[0][512] = 17;
    assert_eq!(board.get_resource(1, &mut out), -8);
    board.refresh();
    assert_eq!(listed(&board).len(), 2);
    // The total is the kept one; a window's cells begin where it is said.
    board.cell_offsets[7] = 2060;
    assert_eq!(board.read_data(&cells[..2064], Io, 2, 0x104, Byte, LATER_TEXT), (-7, 0));
    board.cell_offsets[96] = 65_537;
    assert_eq!(board.read_data(&cells, Io, 2, 0x104, Byte, LATER_TEXT), (-7, 0));
    assert_eq!(board.reset(&mut cells), -7);
}

/// k set to 0 in the record while the kept list stands: data calls and the listing go by the
/// list, descriptors and all that works the list out afresh by the record.
#[test]
fn exponent_gone_from_the_record() {
    let (mut board, mut cells) = fresh_b1();
    board.records[1][512] = 0;
    let lines = listed(&board);
    assert_eq!(lines.len(), 3);
    let value = 0x1122_3344;
    assert_eq!(board.write_data(&mut cells, Memory, 2, 0x8000_0400, Long, value, LATER_TEXT), 0);
    assert_eq!(board.read_data(&cells, Memory, 2, 0x8000_0400, Word, LATER_TEXT), (0, 0x3344));
    let mut out = [0xA5; 40];
    assert_eq!(board.get_resource(2, &mut out), 0);
    assert_eq!(out[..4], [0, 20, 0xC1, 0x02]);
    assert_eq!(out[20..], [0xA5; 20]);
    let mut image = [0; 1100];
    assert_eq!(board.write_image(&mut image), 0);
    assert_eq!(image[544 + 512], 0);
    assert_eq!(check_image(&image, 65_536), Verdict { number: 6, place: 1 });
    assert_eq!(listed(&board), lines);
    let mut written = board.clone();
    assert_eq!(written.write_config(1, 0x04, Byte, 3), 0);
    assert_eq!(listed(&written), [&lines[0][..], &lines[2]]);
    assert_eq!(board.reset(&mut cells[..2063]), -7);
    assert_eq!(board.reset(&mut cells[..2064]), 0);
    assert_eq!(listed(&board), [&lines[0][..], &lines[2]]);
}

#[test]
fn altered_hooks() {
    let (mut board, _) = fresh_b1();
    board.hooks = [Hook { handle: 9, handler: 1, parameter: 1 }; 16];
    assert_eq!(board.hook_interrupt(1, 1, 1), -6);
    assert_eq!(board.unhook_interrupt(1), -8);
    // An entry with handle 0 is no hook, but the array is full by its last entry.
    board.hooks[1].handle = 0;
    assert_eq!(board.hook_interrupt(1, 1, 1), -6);
    assert_eq!(board.list_chain(0, 14), (0, 9, 1, 1));
    assert_eq!(board.list_chain(0, 15), (-4, 0, 0, 0));
    // The first of two goes, and what stands after it moves as it is.
    board.hooks[3] = Hook { handle: 1, handler: 7, parameter: 8 };
    board.hooks[5] = Hook { handle: 1, handler: 6, parameter: 5 };
    assert_eq!(board.unhook_interrupt(1), 0);
    assert_eq!(board.hooks[1], Hook { handle: 0, handler: 1, parameter: 1 });
    assert_eq!((board.hooks[4].handle, board.hooks[15]), (1, Hook::default()));
    assert_eq!(board.list_chain(5, 0), (0, 1, 6, 5));
    // A new hook goes after the last one up to its line, wherever entries with handle 0 are.
    assert_eq!(board.hook_interrupt(2, 3, 4), 0);
    assert_eq!(board.hooks[15], Hook { handle: 2, handler: 3, parameter: 4 });
    assert_eq!(board.unhook_interrupt(2), 0);
    board.records[8][0x3C] = 6;
    assert_eq!(board.hook_interrupt(2, 3, 4), 0);
    assert_eq!(board.hooks[5], Hook { handle: 2, handler: 3, parameter: 4 });
    assert_eq!((board.hooks[6].handle, board.hooks[15].handle), (9, 9));
}

fn any_board(numbers: &mut Numbers) -> Board {
    let (mut board, _) = fresh_b1();
    let odd = |numbers: &mut Numbers| match numbers.below(4) {
        0 => numbers.next(),
        1 => u32::MAX - numbers.below(4),
        _ => numbers.below(18),
    };
    board.count = odd(numbers);
    for byte in board.records.as_flattened_mut() {
        *byte = numbers.below(18) as u8;
    }
    for byte in board.registers.as_flattened_mut() {
        *byte = numbers.next() as u8;
    }
    for window in &mut board.list {
        *window = KeptWindow {
            io: numbers.below(2) == 0,
            start: odd(numbers),
            length: odd(numbers),
            handle: numbers.below(6),
            base: odd(numbers),
            contested: numbers.below(4) == 0,
        };
    }
    board.cell_offsets = board.cell_offsets.map(|_| odd(numbers));
    for hook in &mut board.hooks {
        hook.handle = odd(numbers);
    }
    board
}

#[test]
fn every_call_ends() {
    let mut numbers = Numbers(2);
    for _ in 0..300 {
        let mut board = any_board(&mut numbers);
        let mut cells = vec![0; numbers.below(40) as usize];
        let mut out = vec![0; numbers.below(9000) as usize];
        board.write_image(&mut out);
        for handle in (0..18).chain([u32::MAX]) {
            for (space, width) in [(Memory, Byte), (Io, Word), (Memory, Long)] {
                let call_edition = numbers.below(4);
                for at in [0, 4, numbers.below(40), numbers.next(), u32::MAX] {
                    board.read_data(&cells, space, handle, at, width, call_edition);
                    board.fast_read_data(&cells, space, handle, at, width, call_edition);
                    board.write_data(&mut cells, space, handle, at, width, at, call_edition);
                }
                let register = numbers.next() as u8;
                board.read_config(handle, register, width);
            }
            board.get_resource(handle, &mut out);
            board.hook_interrupt(handle, 1, 2);
            board.list_chain(numbers.below(17), numbers.below(17));
            board.unhook_interrupt(numbers.below(18));
            board.set_card_used(handle, numbers.below(5), 1);
            board.get_card_used(handle);
            board.bus_to_cpu(handle, u32::MAX);
            board.cpu_to_bus(handle, 0);
            let call_edition = numbers.below(4);
            board.find_pci_device(numbers.next(), handle, call_edition);
            board.find_pci_classcode(numbers.next(), handle, call_edition);
            board.list_window(handle);
        }
        board.write_config(numbers.below(18), numbers.next() as u8, Byte, numbers.next());
        board.reset(&mut cells);
    }
}
