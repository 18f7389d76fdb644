//! Tests by subject; what they expect is taken from the words of documents 01 and 02.

mod altered;
mod call_editions;
mod cases;
mod chains;
mod data;
mod images;
mod resources;
mod status;
mod windows;

use crate::board_b1::{b1_image, image_of, plain_record, set_window, Shape};
use crate::{Board, Record, Space, Verdict, Width};

/// What an untouched lent byte holds in these tests.
const LENT: u8 = 0xA5;

fn loaded(image: &[u8]) -> (Board, Vec<u8>) {
    let mut board = Board::new();
    let mut cells = vec![LENT; 65_536];
    assert_eq!(board.load(image, &mut cells), Verdict::default());
    (board, cells)
}

fn fresh_b1() -> (Board, Vec<u8>) {
    loaded(&b1_image())
}

/// A record with windows of order 0 and all widths, from (register, k) by base.
fn record_with(windows: &[(u32, u8)]) -> Record {
    let mut record = plain_record();
    for (base, &(register, k)) in windows.iter().enumerate() {
        if k != 0 {
            set_window(&mut record, base, Shape { register, k, order: 0, widths: 7 });
        }
    }
    record
}

fn board_of(records: &[Record]) -> (Board, Vec<u8>) {
    loaded(&image_of(records))
}

/// Reads, fast reads and writes must all give this refusal and touch nothing.
fn refused_in(
    call_edition: u32,
    board: &Board,
    cells: &[u8],
    space: Space,
    handle: u32,
    address: u32,
    width: Width,
) -> i32 {
    let (number, value) = board.read_data(cells, space, handle, address, width, call_edition);
    assert!(number < 0 && value == 0);
    let fast = board.fast_read_data(cells, space, handle, address, width, call_edition);
    assert_eq!(fast, (width.all_ones(), true));
    let mut written = cells.to_vec();
    let value = 0x1234_5678;
    let write = board.write_data(&mut written, space, handle, address, width, value, call_edition);
    assert_eq!((write, &written[..]), (number, cells));
    number
}

/// The window list in the form of document 01's `windows` program.
fn listed(board: &Board) -> Vec<String> {
    let answers = (0..).map(|n| board.list_window(n));
    answers
        .take_while(|answer| answer.number == 0)
        .map(|answer| {
            let w = answer.window;
            let space = if w.io { "io" } else { "mem" };
            let mark = if w.contested { "contested" } else { "clear" };
            let (start, length) = (w.start, w.length);
            format!("{space} {start:08x} {length:08x} {} {} {mark}", w.handle, w.base)
        })
        .collect()
}

/// A small generator of numbers for tests over many states.
struct Numbers(u64);

impl Numbers {
    fn next(&mut self) -> u32 {
        self.0 = self.0.wrapping_mul(6364136223846793005).wrapping_add(1442695040888963407);
        (self.0 >> 32) as u32
    }

    fn below(&mut self, end: u32) -> u32 {
        self.next() % end
    }
}
