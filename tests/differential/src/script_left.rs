//! What the run of a script leaves by the second implementation, and how the proved code's
//! run of it differs.

use crate::editions::named;
use crate::model::Second;
use crate::parts::first_difference;
use crate::proved::Proved;
use crate::script_decode::front;
use crate::script_encode::{answered, is_refused, Asked};

/// A call that was performed.
pub struct Performed {
    /// Where it stands in the script.
    pub place: usize,
    pub name: &'static str,
    /// The edition that it names, where it names one.
    pub call_edition: Option<u32>,
    pub refused: bool,
}

pub struct Left {
    /// Where the run stopped.
    pub place: usize,
    pub script: Vec<u8>,
    pub second: Second,
    pub calls: Vec<Performed>,
    /// What is wrong with the call at which it stopped.
    pub wrong: Vec<&'static str>,
}

impl Left {
    /// Before the first call, with a cell buffer of these contents.
    pub fn new(cells: Vec<u8>) -> Self {
        let second = Second::new(cells);
        Left { place: 0, script: Vec::new(), second, calls: Vec::new(), wrong: Vec::new() }
    }

    /// What the run of any bytes leaves.
    pub fn of(script: &[u8], cells: Vec<u8>) -> Self {
        let mut left = Left::new(cells);
        while left.place < script.len() {
            match front(&script[left.place..], left.second.cells.len()) {
                Ok(asked) => left.perform(&asked),
                Err(wrong) => {
                    left.wrong = wrong;
                    break;
                }
            }
        }
        left.script.extend(&script[left.place..]);
        left
    }

    /// Performs the next call: its answer stands where the call stood.
    pub fn perform(&mut self, asked: &Asked) {
        let answer = self.second.perform(&asked.call);
        self.calls.push(Performed {
            place: self.place,
            name: asked.call.name(),
            call_edition: named(&asked.call),
            refused: is_refused(&asked.call, &answer),
        });
        self.script.extend(answered(asked, &answer));
        self.place = self.script.len();
    }

    /// Runs the script in the proved code, over whatever parts it has, and compares all
    /// that is left.
    pub fn compare(&self, proved: &mut Proved, script: &[u8]) -> Result<(), String> {
        let (place, answers) = proved.run_script(script)?;
        let difference = first_difference("place", &[place], &[self.place])
            .or_else(|| self.first_answer(&answers))
            .or_else(|| proved.parts().first_difference(&self.second.parts))
            .or_else(|| first_difference("cells", proved.cells(), &self.second.cells));
        difference.map_or(Ok(()), Err)
    }

    /// The first answer that differs from the proved code's, or the bytes from the stop on.
    fn first_answer(&self, proved: &[u8]) -> Option<String> {
        let difference = first_difference("script", proved, &self.script)?;
        let at = proved.iter().zip(&self.script).position(|(ours, theirs)| ours != theirs);
        let at = at.unwrap_or(self.place);
        let call = self.calls.iter().rfind(|call| call.place <= at).filter(|_| at < self.place);
        let from = "from the stop on".to_string();
        let of = call.map_or(from, |call| format!("{} at {}", call.name, call.place));
        Some(format!("{of}: {difference}"))
    }
}
