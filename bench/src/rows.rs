//! The rows of the table: which calls are timed, on which board.

use crate::arguments::{addresses, first_hooks, last_hooks, moves, registers, LIST};
use crate::boards::TimedBoard;
use crate::calls::{Answer, ChainHook, ConfigCall, DataCall, Results, LONG, WIDTHS};
use crate::model::Second;
use crate::pair::Pair;
use crate::proved::Proved;
use crate::timing::{timed, Times};
use second::{DRAFT_1_9, LATER_TEXT};
use std::fmt::Debug;

pub struct Row {
    pub name: &'static str,
    pub board: &'static str,
    pub times: Times,
}

/// Times every row of a board once.
pub fn swept(board: &TimedBoard) -> Result<Vec<Row>, String> {
    let mut rows = Rows { board, rows: Vec::new() };
    rows.config()?;
    rows.data()?;
    rows.listings()?;
    rows.whole_board()?;
    Ok(rows.rows)
}

/// The rows of one board, as far as they are timed.
struct Rows<'a> {
    board: &'a TimedBoard,
    rows: Vec<Row>,
}

impl Rows<'_> {
    fn config(&mut self) -> Result<(), String> {
        let read = |rows: &mut Self, name, list: &[ConfigCall]| {
            rows.row(name, list, 1, Proved::read_config, Second::read_config)
        };
        let write = |rows: &mut Self, name, list: &[ConfigCall]| {
            rows.row(name, list, 1, Proved::write_config, Second::write_config)
        };
        let (long, any) = (registers(self.board, &[LONG]), registers(self.board, &WIDTHS));
        read(self, "configuration read, longword", &long)?;
        read(self, "configuration read, any width", &any)?;
        write(self, "configuration write, longword", &long)?;
        write(self, "configuration write, any width", &any)?;
        write(self, "base register move", &moves(self.board))
    }

    fn data(&mut self) -> Result<(), String> {
        let read = |rows: &mut Self, name, list: &[DataCall]| {
            rows.row(name, list, 1, Proved::read_data, Second::read_data)
        };
        let write = |rows: &mut Self, name, list: &[DataCall]| {
            rows.row(name, list, 1, Proved::write_data, Second::write_data)
        };
        let lists = |edition| [&[LONG][..], &WIDTHS].map(|w| addresses(self.board, w, edition));
        let ([long, any], [draft_long, draft_any]) = (lists(LATER_TEXT), lists(DRAFT_1_9));
        read(self, "data read, longword", &long)?;
        read(self, "data read, any width", &any)?;
        write(self, "data write, longword", &long)?;
        write(self, "data write, any width", &any)?;
        read(self, "data read of draft 1.9, longword", &draft_long)?;
        read(self, "data read of draft 1.9, any width", &draft_any)?;
        write(self, "data write of draft 1.9, longword", &draft_long)?;
        write(self, "data write of draft 1.9, any width", &draft_any)
    }

    fn listings(&mut self) -> Result<(), String> {
        let chain = |rows: &mut Self, name, list: &[ChainHook]| {
            rows.row(name, list, 1, Proved::list_chain, Second::list_chain)
        };
        let window = |rows: &mut Self, name, n| {
            rows.row(name, &vec![n; LIST], 1, Proved::list_window, Second::list_window)
        };
        chain(self, "chain listing, first hook", &first_hooks(self.board))?;
        chain(self, "chain listing, last hook", &last_hooks(self.board))?;
        window(self, "window listing, first window", 0)?;
        window(self, "window listing, last window", self.board.windows.len() as u32 - 1)
    }

    fn whole_board(&mut self) -> Result<(), String> {
        self.row("load", &self.board.images(), 20, Proved::load, Second::load)?;
        self.row("reset", &[()], 200, Proved::reset, Second::reset)
    }

    /// Times the calls of a list on the board as `prepared` leaves it.
    fn row<A: Debug, R: Results, S: Into<Answer>>(
        &mut self,
        name: &'static str,
        arguments: &[A],
        times_over: usize,
        proved: impl Fn(&mut Proved, &A, &mut R) -> i32,
        second: impl Fn(&mut Second, &A) -> S,
    ) -> Result<(), String> {
        let times = self
            .prepared()
            .and_then(|mut pair| timed(&mut pair, arguments, times_over, proved, second))
            .map_err(|fault| format!("{name} on {}: {fault}", self.board.name))?;
        self.rows.push(Row { name, board: self.board.name, times });
        Ok(())
    }

    /// Both sides with the board loaded, all functions hooked and cells written.
    fn prepared(&self) -> Result<Pair, String> {
        let board = self.board;
        let mut pair = Pair::new(board.cells());
        pair.accepted(&board.images(), Proved::load, Second::load)?;
        let handles: Vec<u32> = (1..=board.functions()).rev().collect();
        pair.accepted(&handles, Proved::hook_interrupt, Second::hook_interrupt)?;
        let writes = addresses(board, &WIDTHS, LATER_TEXT);
        pair.accepted(&writes, Proved::write_data, Second::write_data)?;
        Ok(pair)
    }
}
