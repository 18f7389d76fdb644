//! Both implementations on equal parts: each call is performed in both, and all that it
//! leaves is compared.

use crate::calls::{Answer, Call};
use crate::history::History;
use crate::layer::{Layer, Performed, Through};
use crate::model::Second;
use crate::parts::{first_difference, Parts};
use crate::tally::Tally;

pub struct Pair {
    proved: Layer,
    second: Second,
    history: History,
}

impl Pair {
    /// The board before the first load, with a cell buffer of these contents.
    pub fn new(through: Through, cells: Vec<u8>) -> Self {
        let second = Second::new(cells);
        let proved = Layer::new(through, &second.parts, &second.cells);
        Pair { proved, second, history: History::default() }
    }

    pub fn second(&self) -> &Second {
        &self.second
    }

    pub fn parts(&self) -> &Parts {
        &self.second.parts
    }

    pub fn cells(&self) -> &[u8] {
        &self.second.cells
    }

    /// Performs a call, as it can be made, and counts what it met; the answer is the one that
    /// both gave.
    pub fn call(&mut self, call: &Call, tally: &mut Tally) -> Result<Answer, String> {
        let said = self.proved.said(call);
        let call = said.as_ref();
        let before = self.second.parts.clone();
        let expected = self.second.perform(call);
        tally.count(call, &expected, &before, &self.second, &self.history);
        self.history.note(call, &expected, &before, &self.second.parts);
        let Performed { answer, second, recorded } = self.proved.perform(call, expected)?;
        let difference = answer
            .first_difference(&second)
            .or_else(|| self.proved.first_difference(&self.second.parts))
            .or_else(|| first_difference("cells", self.proved.cells(), &self.second.cells))
            .or(recorded);
        difference.map_or(Ok(answer), Err)
    }

    /// Gives the parts of both other contents, as a caller may.
    pub fn change_parts(&mut self, change: impl FnOnce(&mut Parts)) {
        change(&mut self.second.parts);
        self.history = History::default();
        self.proved.lend(&mut self.second.parts);
    }

    /// Gives the cell buffer of both other contents, as a caller may.
    pub fn change_cells(&mut self, change: impl FnOnce(&mut [u8])) {
        change(&mut self.second.cells);
        self.history.written = None;
        self.proved.lend_cells(&self.second.cells);
    }
}
