//! Both sides on the same board: the same calls in both, and their answers compared.

use crate::calls::{Answer, ChainHook, ConfigCall, Results, LONG};
use crate::model::Second;
use crate::proved::Proved;
use second::{FUNCTIONS, WINDOWS};
use std::fmt::Debug;

const LINES: u32 = 16;
const REGISTERS: usize = 256;

pub struct Pair {
    pub proved: Proved,
    pub second: Second,
}

impl Pair {
    /// The board before the first load, with so many cells.
    pub fn new(cells: usize) -> Self {
        Pair { proved: Proved::new(cells), second: Second::new(cells) }
    }

    /// Makes each call in both; both must accept it and give the same answer.
    pub fn accepted<A: Debug, R: Results, S: Into<Answer>>(
        &mut self,
        arguments: &[A],
        proved: impl Fn(&mut Proved, &A, &mut R) -> i32,
        second: impl Fn(&mut Second, &A) -> S,
    ) -> Result<(), String> {
        for argument in arguments {
            let answer = self.compared(argument, &proved, &second)?;
            if answer.number != 0 {
                return Err(format!("refused with {}: {argument:x?}", answer.number));
            }
        }
        Ok(())
    }

    /// Makes a call in both; the answer is the one that both gave, accepted or not.
    fn compared<A: Debug, R: Results, S: Into<Answer>>(
        &mut self,
        argument: &A,
        proved: impl Fn(&mut Proved, &A, &mut R) -> i32,
        second: impl Fn(&mut Second, &A) -> S,
    ) -> Result<Answer, String> {
        let mut results = R::default();
        let number = proved(&mut self.proved, argument, &mut results);
        let ours: Answer = (number, results).into();
        let theirs: Answer = second(&mut self.second, argument).into();
        match ours == theirs {
            true => Ok(ours),
            false => Err(format!("proved {ours:x?}, second {theirs:x?}: {argument:x?}")),
        }
    }

    /// Compares all that can be read of the boards: registers, windows, chains, cells.
    pub fn same_state(&mut self) -> Result<(), String> {
        for handle in 0..=FUNCTIONS as u32 + 1 {
            for register in (0..REGISTERS).step_by(4) {
                let call = ConfigCall { width: LONG, handle, register: register as u8, value: 0 };
                self.compared(&call, Proved::read_config, Second::read_config)?;
            }
        }
        for n in 0..=WINDOWS as u32 {
            self.compared(&n, Proved::list_window, Second::list_window)?;
        }
        for line in 0..LINES {
            for index in 0..=FUNCTIONS as u32 {
                let at = ChainHook { line, index };
                self.compared(&at, Proved::list_chain, Second::list_chain)?;
            }
        }
        match self.proved.cells == self.second.cells {
            true => Ok(()),
            false => Err("the cells differ".into()),
        }
    }
}

#[cfg(test)]
mod tests {
    use super::*;
    use crate::boards::{b1, full};

    /// A call that both refuse, or that one answers otherwise, must not be timed.
    #[test]
    fn refused_and_differing_calls() {
        for board in [b1(), full()] {
            let mut pair = Pair::new(board.cells());
            assert_eq!(pair.accepted(&board.images(), Proved::load, Second::load), Ok(()));
            assert_eq!(pair.accepted(&[0], Proved::list_window, Second::list_window), Ok(()));
            let past = [0, board.windows.len() as u32];
            let refused = pair.accepted(&past, Proved::list_window, Second::list_window);
            assert!(refused.unwrap_err().starts_with("refused with -4"));
            let next = |second: &mut Second, n: &u32| second.list_window(&(n + 1));
            assert!(pair.accepted(&[0], Proved::list_window, next).is_err());
        }
    }

    /// One write in one of the two, or a hook, is seen.
    #[test]
    fn differing_states() {
        let board = b1();
        let loaded = || {
            let mut pair = Pair::new(board.cells());
            pair.accepted(&board.images(), Proved::load, Second::load).unwrap();
            pair.same_state().unwrap();
            pair
        };
        let mut pair = loaded();
        pair.second.write_config(&ConfigCall { width: LONG, handle: 2, register: 0x3C, value: 6 });
        assert!(pair.same_state().is_err());
        let mut pair = loaded();
        pair.proved.hook_interrupt(&1, &mut ());
        assert!(pair.same_state().is_err());
        let mut pair = loaded();
        pair.second.cells[0] = 1;
        assert_eq!(pair.same_state(), Err("the cells differ".into()));
    }
}
