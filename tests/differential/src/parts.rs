//! The lent arrays of a board: their form in `second`, and the first difference of two.

use crate::boards::MASKS;
use exports::*;
use second::{Board, Hook, KeptWindow, Used, FUNCTIONS, RECORD_LENGTH};
use std::fmt::LowerHex;

/// In the order of `struct pci_board` of host/pci_bios.h, so that this is one.
#[repr(C)]
#[derive(Clone)]
pub struct Parts {
    pub header: Header,
    pub records: Records,
    pub registers: Registers,
    pub windows: Windows,
    pub cell_offsets: CellOffsets,
    pub hooks: Hooks,
    pub used: UsedMarks,
}

impl Parts {
    /// The parts of a board: the header has its count and zeros.
    pub fn of(board: &Board) -> Self {
        let mut parts = Parts {
            header: [board.count, 0, 0, 0],
            records: [0; FUNCTIONS * RECORD_LENGTH],
            registers: [0; FUNCTIONS * REGISTERS],
            windows: board.list.map(packed),
            cell_offsets: board.cell_offsets,
            hooks: [0; 3 * FUNCTIONS],
            used: [0; 2 * FUNCTIONS],
        };
        parts.records.copy_from_slice(board.records.as_flattened());
        parts.registers.copy_from_slice(board.registers.as_flattened());
        let hooks = board.hooks.map(|hook| [hook.handle, hook.handler, hook.parameter]);
        parts.hooks.copy_from_slice(hooks.as_flattened());
        let used = board.used.map(|used| [used.status, used.call_back]);
        parts.used.copy_from_slice(used.as_flattened());
        parts
    }

    /// The board of these parts. The rest of the header and the bits above a kept
    /// window's fields have no place in it.
    pub fn board(&self) -> Board {
        let mut board = Board::new();
        board.count = self.header[0];
        board.records.as_flattened_mut().copy_from_slice(&self.records);
        board.registers.as_flattened_mut().copy_from_slice(&self.registers);
        board.list = self.windows.map(unpacked);
        board.cell_offsets = self.cell_offsets;
        for (hook, numbers) in board.hooks.iter_mut().zip(self.hooks.chunks(3)) {
            *hook = Hook { handle: numbers[0], handler: numbers[1], parameter: numbers[2] };
        }
        for (used, numbers) in board.used.iter_mut().zip(self.used.chunks(2)) {
            *used = Used { status: numbers[0], call_back: numbers[1] };
        }
        board
    }

    /// The number of functions, never above 16.
    pub fn functions(&self) -> usize {
        (self.header[0] as usize).min(FUNCTIONS)
    }

    /// The windows of the kept list as it stands, up to its end.
    pub fn listed(&self) -> Vec<KeptWindow> {
        let windows = self.windows.iter().map(|&number| unpacked(number));
        windows.take_while(|window| window.length != 0).collect()
    }

    /// The kept windows past the end of the list, which are in no list.
    pub fn past_the_list(&self) -> Vec<KeptWindow> {
        let windows = self.windows.iter().map(|&number| unpacked(number));
        let past = windows.skip_while(|window| window.length != 0);
        past.filter(|window| window.length != 0).collect()
    }

    /// The entries of the hook array: handle, handler, parameter.
    pub fn hook_entries(&self) -> &[[u32; 3]] {
        self.hooks.as_chunks().0
    }

    /// The line in a function's loaded register 3Ch; 0 where there is no place for it.
    pub fn loaded_line(&self, handle: u32) -> u8 {
        self.loaded(handle, 0x3C)
    }

    /// The pin in its loaded register 3Dh.
    pub fn loaded_pin(&self, handle: u32) -> u8 {
        self.loaded(handle, 0x3D)
    }

    /// The line that its register 3Ch says now.
    pub fn current_line(&self, handle: u32) -> u8 {
        self.register(handle, 0x3C)
    }

    /// The record of a handle, where there is a place for it.
    pub fn record(&self, handle: u32) -> Option<&[u8]> {
        self.records.chunks(RECORD_LENGTH).nth((handle as usize).wrapping_sub(1))
    }

    /// A register as it is now; 0 where there is no place for it.
    pub fn register(&self, handle: u32, register: usize) -> u8 {
        byte_of(&self.registers, REGISTERS, handle, register)
    }

    /// The value that it was loaded with.
    pub fn loaded(&self, handle: u32, register: usize) -> u8 {
        byte_of(&self.records, RECORD_LENGTH, handle, register)
    }

    /// The mask of a register.
    pub fn mask(&self, handle: u32, register: usize) -> u8 {
        byte_of(&self.records, RECORD_LENGTH, handle, MASKS + register)
    }

    /// The list that count, records and registers give, whatever is kept.
    pub fn fresh_windows(&self) -> Windows {
        let mut board = self.board();
        board.refresh();
        board.list.map(packed)
    }

    /// The first place where these parts, the proved code's, differ from `second`'s.
    pub fn first_difference(&self, second: &Parts) -> Option<String> {
        first_difference("header", &self.header, &second.header)
            .or_else(|| first_difference("records", &self.records, &second.records))
            .or_else(|| first_difference("registers", &self.registers, &second.registers))
            .or_else(|| first_difference("windows", &self.windows, &second.windows))
            .or_else(|| first_difference("cell_offsets", &self.cell_offsets, &second.cell_offsets))
            .or_else(|| first_difference("hooks", &self.hooks, &second.hooks))
            .or_else(|| first_difference("used", &self.used, &second.used))
    }
}

/// The first place where an array of the proved code's differs from `second`'s.
pub fn first_difference<T: PartialEq + LowerHex>(
    name: &str,
    proved: &[T],
    second: &[T],
) -> Option<String> {
    if proved == second {
        return None;
    }
    let mut pairs = proved.iter().zip(second).enumerate();
    let found = pairs.find(|(_, (ours, theirs))| ours != theirs);
    Some(match found {
        Some((at, (ours, theirs))) => {
            format!("{name}[{at}]: proved {ours:#x}, second {theirs:#x}")
        }
        None => format!("{name}: proved {} long, second {}", proved.len(), second.len()),
    })
}

/// A byte of a handle's part of an array; 0 where there is none.
fn byte_of(bytes: &[u8], each: usize, handle: u32, at: usize) -> u8 {
    let part = bytes.chunks(each).nth((handle as usize).wrapping_sub(1));
    part.map_or(0, |part| part[at])
}

/// A kept window as one number: space, start, handle, base, length, contested.
fn packed(window: KeptWindow) -> u64 {
    u64::from(window.io) << 58
        | u64::from(window.start) << 26
        | u64::from(window.handle & 0x1F) << 21
        | u64::from(window.base & 7) << 18
        | u64::from(window.length & 0x1_FFFF) << 1
        | u64::from(window.contested)
}

fn unpacked(number: u64) -> KeptWindow {
    KeptWindow {
        io: number >> 58 & 1 == 1,
        start: (number >> 26) as u32,
        length: (number >> 1) as u32 & 0x1_FFFF,
        handle: (number >> 21) as u32 & 0x1F,
        base: (number >> 18) as u32 & 7,
        contested: number & 1 == 1,
    }
}
