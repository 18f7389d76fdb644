//! The argument lists of the rows, prepared before anything is timed.

use crate::boards::{TimedBoard, Window};
use crate::calls::{AskedWidth, ChainHook, ConfigCall, DataCall, LONG};
use second::DRAFT_1_9;

/// The length of a list: too long for a processor to learn its branches by heart, as some do with
/// 4,096 calls (bench/README.md). The length costs nothing by itself: both sides read the same list
/// from its start to its end, and so it is fetched ahead.
pub const LIST: usize = 65_536;

/// The length of a list of base register moves, each of which takes many branches.
const MOVES: usize = LIST / 4;

const FIRST_BASE: u8 = 0x10;
const AFTER_BASES: u8 = 0x28;

/// A xorshift generator with a fixed seed: every run times the same calls.
struct Random(u64);

impl Random {
    fn new() -> Self {
        Random(0x9E37_79B9_7F4A_7C15)
    }

    fn below(&mut self, bound: usize) -> usize {
        self.0 ^= self.0 << 13;
        self.0 ^= self.0 >> 7;
        self.0 ^= self.0 << 17;
        (self.0 >> 32) as usize % bound
    }

    fn of<T: Copy>(&mut self, items: &[T]) -> T {
        items[self.below(items.len())]
    }
}

/// Registers past the base registers, at these widths: reads, and writes that move no window.
pub fn registers(board: &TimedBoard, widths: &[AskedWidth]) -> Vec<ConfigCall> {
    let mut random = Random::new();
    let call = |_| {
        let width = random.of(widths);
        let registers = (256 - usize::from(AFTER_BASES)) / width.bytes as usize;
        ConfigCall {
            width,
            handle: 1 + random.below(board.functions() as usize) as u32,
            register: AFTER_BASES + (random.below(registers) * width.bytes as usize) as u8,
            value: random.below(1 << 32) as u32,
        }
    };
    (0..LIST).map(call).collect()
}

/// Any window moved to one of twice as many starts as there are windows, so that some meet.
pub fn moves(board: &TimedBoard) -> Vec<ConfigCall> {
    let mut random = Random::new();
    let lowest = |window: &Window| window.start >> window.k;
    let call = |_| {
        let window = random.of(&board.windows);
        let of_its_kind = |other: &&Window| other.space.io == window.space.io;
        let first = board.windows.iter().filter(of_its_kind).map(lowest).min().unwrap_or(1);
        let multiple = first + random.below(2 * board.windows.len()) as u32;
        ConfigCall {
            width: LONG,
            handle: window.handle,
            register: FIRST_BASE + 4 * window.base,
            value: multiple << window.k,
        }
    };
    (0..MOVES).map(call).collect()
}

/// Any address of any window that offers one of these widths, at one that it offers, as the
/// edition names it. The lists of both editions have the same accesses.
pub fn addresses(board: &TimedBoard, widths: &[AskedWidth], call_edition: u32) -> Vec<DataCall> {
    let mut random = Random::new();
    let offers = |window: &Window, width: &AskedWidth| u32::from(window.widths) & width.bytes != 0;
    let of_window = |window: &Window| {
        let offered = widths.iter().filter(|width| offers(window, width));
        (*window, offered.copied().collect::<Vec<_>>())
    };
    let windows: Vec<_> = board.windows.iter().map(of_window).collect();
    let windows: Vec<_> = windows.iter().filter(|(_, offered)| !offered.is_empty()).collect();
    let added = |window: &Window| if call_edition == DRAFT_1_9 { window.offset } else { 0 };
    let call = |_| {
        let (window, offered) = random.of(&windows);
        let width = random.of(offered);
        let distance = random.below((1 << window.k) / width.bytes as usize) as u32 * width.bytes;
        DataCall {
            space: window.space,
            width,
            handle: window.handle,
            address: (window.start + distance).wrapping_add(added(window)),
            value: random.below(1 << 32) as u32,
            call_edition,
        }
    };
    (0..LIST).map(call).collect()
}

/// The first hook of each line's chain.
pub fn first_hooks(board: &TimedBoard) -> Vec<ChainHook> {
    hooks(board, |_| 0)
}

/// The last hook of each line's chain.
pub fn last_hooks(board: &TimedBoard) -> Vec<ChainHook> {
    hooks(board, |functions| functions - 1)
}

fn hooks(board: &TimedBoard, index_in: impl Fn(u32) -> u32) -> Vec<ChainHook> {
    let mut random = Random::new();
    let call = |_| {
        let (line, functions) = random.of(&board.lines);
        ChainHook { line, index: index_in(functions) }
    };
    (0..LIST).map(call).collect()
}

#[cfg(test)]
mod tests {
    use super::*;
    use crate::boards::{b1, full};
    use crate::calls::WIDTHS;
    use second::LATER_TEXT;

    /// Every function and width, and every window where a window is named.
    #[test]
    fn what_lists_hold() {
        for board in [b1(), full()] {
            let config = registers(&board, &WIDTHS);
            let data = addresses(&board, &WIDTHS, LATER_TEXT);
            let moves = moves(&board);
            for handle in 1..=board.functions() {
                assert!(config.iter().any(|call| call.handle == handle));
            }
            for width in WIDTHS {
                assert!(config.iter().any(|call| call.width.bytes == width.bytes));
                assert!(data.iter().any(|call| call.width.bytes == width.bytes));
            }
            for window in &board.windows {
                let register = FIRST_BASE + 4 * window.base;
                let moves_it =
                    |call: &ConfigCall| (call.handle, call.register) == (window.handle, register);
                let meets_it = |call: &DataCall| {
                    (call.handle, call.space.io) == (window.handle, window.space.io)
                        && call.address >> window.k == window.start >> window.k
                };
                assert!(moves.iter().any(moves_it));
                assert!(data.iter().any(meets_it));
            }
        }
    }

    /// The same accesses in both editions, each by its function's offset; on the full board some
    /// wrap.
    #[test]
    fn the_same_in_both_editions() {
        for board in [b1(), full()] {
            let [later, draft] =
                [LATER_TEXT, DRAFT_1_9].map(|edition| addresses(&board, &WIDTHS, edition));
            let mut wrap = false;
            for (later, draft) in later.iter().zip(&draft) {
                let of_handle = |window: &&Window| window.handle == later.handle;
                let offset = board.windows.iter().find(of_handle).map(|window| window.offset);
                assert_eq!(Some(draft.address.wrapping_sub(later.address)), offset);
                wrap |= draft.address < later.address;
                assert_eq!((later.call_edition, draft.call_edition), (2, 1));
                let same = |call: &DataCall| (call.handle, call.width.bytes, call.value);
                assert_eq!(same(later), same(draft));
            }
            assert_eq!(wrap, board.name == "full");
        }
    }

    /// Writes of configuration rows work no list out anew.
    #[test]
    fn registers_that_move_no_window() {
        for call in registers(&full(), &WIDTHS) {
            assert!(!second::moves_windows(call.register, call.width.width));
        }
        for call in moves(&full()) {
            assert!(second::moves_windows(call.register, call.width.width));
        }
    }
}
