//! What a call on hooks or chains met beside the number of its answer; of used marks, see
//! used_met.rs.

use crate::calls::Answer;
use crate::chain_calls::ChainCall;
use crate::history::History;
use crate::met::Met;
use crate::parts::Parts;
use crate::used_met;
use second::FUNCTIONS;

const AFTER_UNHOOK: &str = "a hook of a function unhooked before, behind another of its line";
const BEFORE_LATER: &str = "a hook before those of later lines";
const SIXTEENTH: &str = "a hook that makes the array full";
const PAST_NONE: &str = "a hook past an entry with handle 0";
const MOVES_NONE: &str = "a hook that moves an entry with handle 0 and a handler";
const DROPS_NONE: &str = "a hook that drops a last entry with handle 0 and a handler";
const NO_PIN: &str = "a hook refused for the pin alone";
const NO_LINE: &str = "a hook refused for the line alone";
const LINE_16_HOOKED: &str = "a hook refused for line 16";
const NO_ROUTE_HOOKED: &str = "a hook refused for pin or line that is hooked already";
const ALREADY: &str = "a hook refused as hooked, with room";
const ALREADY_PAST_NONE: &str = "a hook refused as hooked past an entry with handle 0";
const FULL: &str = "a hook refused for a full array without its handle";
const FULL_WITH_NONE: &str = "a hook refused for the last entry, another with handle 0";
const BAD_HANDLE_HOOKED: &str = "a hook of a bad handle that the array has";
const BAD_HANDLE_UNHOOKED: &str = "an unhook of a bad handle that the array has";
const ZERO_UNHOOKED: &str = "an unhook of handle 0";
const FROM_MIDDLE: &str = "an unhook between two of its line";
const FROM_FULL: &str = "an unhook from a full array";
const FIRST_OF_TWO: &str = "an unhook of the first of two entries of its handle";
const UNHOOKED_PAST_NONE: &str = "an unhook past an entry with handle 0";

const HOOKING: [&str; 21] = [
    AFTER_UNHOOK,
    BEFORE_LATER,
    SIXTEENTH,
    PAST_NONE,
    MOVES_NONE,
    DROPS_NONE,
    NO_PIN,
    NO_LINE,
    LINE_16_HOOKED,
    NO_ROUTE_HOOKED,
    ALREADY,
    ALREADY_PAST_NONE,
    FULL,
    FULL_WITH_NONE,
    BAD_HANDLE_HOOKED,
    BAD_HANDLE_UNHOOKED,
    ZERO_UNHOOKED,
    FROM_MIDDLE,
    FROM_FULL,
    FIRST_OF_TWO,
    UNHOOKED_PAST_NONE,
];

const SECOND: &str = "a chain's second place listed";
const LAST_LINE: &str = "line 15 listed";
const NOT_REROUTED: &str = "a hook listed after a write to its function's 3Ch";
const NOT_ON_NEW_LINE: &str = "the end of the line that such a write gave";
const JUST_PAST: &str = "a listing just past the end of a chain";
const LINE_16_LISTED: &str = "a listing of line 16";
const LINE_CUT: &str = "a listing of a line that is good only if it is cut";
const LISTED_PAST_NONE: &str = "a hook listed past an entry with handle 0";
const PAST_COUNT: &str = "a hook listed of a handle above the count";
const PAST_RECORDS: &str = "a hook listed of a handle without a record";

const LISTING: [&str; 10] = [
    SECOND,
    LAST_LINE,
    NOT_REROUTED,
    NOT_ON_NEW_LINE,
    JUST_PAST,
    LINE_16_LISTED,
    LINE_CUT,
    LISTED_PAST_NONE,
    PAST_COUNT,
    PAST_RECORDS,
];

/// All that a set of runs must have met of these calls.
pub fn all() -> impl Iterator<Item = &'static str> {
    HOOKING.into_iter().chain(LISTING).chain(used_met::all())
}

pub fn met(
    call: ChainCall,
    answer: &Answer,
    before: &Parts,
    after: &Parts,
    history: &History,
) -> Met {
    match call {
        ChainCall::Hook { handle, .. } if answer.number == 0 => {
            hooked(handle, before, after, history)
        }
        ChainCall::Hook { handle, .. } => not_hooked(handle, answer.number, before),
        ChainCall::Unhook { handle } => unhooked(handle, answer.number, before),
        ChainCall::List { line, place } => listed(line, place, answer, before, history),
        _ => used_met::met(call, answer),
    }
}

/// The first entry with a handle.
fn entry_of(parts: &Parts, handle: u32) -> Option<usize> {
    parts.hook_entries().iter().position(|entry| entry[0] == handle)
}

/// Whether an entry with handle 0 stands before this one.
fn is_past_none(parts: &Parts, at: Option<usize>) -> bool {
    at.is_some_and(|at| parts.hook_entries()[..at].iter().any(|entry| entry[0] == 0))
}

/// The entries of a line's chain.
fn chain(parts: &Parts, line: u32) -> Vec<usize> {
    let on_line = |&at: &usize| {
        let handle = parts.hook_entries()[at][0];
        handle != 0 && u32::from(parts.loaded_line(handle)) == line
    };
    (0..FUNCTIONS).filter(on_line).collect()
}

fn is_full(parts: &Parts) -> bool {
    parts.hook_entries()[FUNCTIONS - 1][0] != 0
}

fn hooked(handle: u32, before: &Parts, after: &Parts, history: &History) -> Met {
    let line = before.loaded_line(handle).into();
    let at = entry_of(after, handle).unwrap_or(FUNCTIONS - 1);
    let moved = &before.hook_entries()[at..];
    let is_none = |entry: &[u32; 3]| entry[0] == 0 && entry[1] != 0;
    let (last, others) = moved.split_last().expect("a hook stands in the array");
    let again = history.unhooked.contains(&handle);
    vec![
        (AFTER_UNHOOK, again && !chain(before, line).is_empty()),
        (BEFORE_LATER, moved[0][0] != 0),
        (SIXTEENTH, is_full(after)),
        (PAST_NONE, is_past_none(after, Some(at))),
        (MOVES_NONE, others.iter().any(is_none)),
        (DROPS_NONE, is_none(last)),
    ]
}

fn not_hooked(handle: u32, number: i64, parts: &Parts) -> Met {
    let entry = entry_of(parts, handle);
    let (pin, line) = (parts.loaded_pin(handle), parts.loaded_line(handle));
    let is_none = |entry: &[u32; 3]| entry[0] == 0;
    match number {
        -9 => vec![(BAD_HANDLE_HOOKED, handle != 0 && entry.is_some())],
        -8 => vec![
            (NO_PIN, pin == 0 && line <= 15),
            (NO_LINE, pin != 0),
            (LINE_16_HOOKED, pin != 0 && line == 16),
            (NO_ROUTE_HOOKED, entry.is_some()),
        ],
        _ => vec![
            (ALREADY, !is_full(parts)),
            (ALREADY_PAST_NONE, !is_full(parts) && is_past_none(parts, entry)),
            (FULL, entry.is_none()),
            (FULL_WITH_NONE, entry.is_none() && parts.hook_entries().iter().any(is_none)),
        ],
    }
}

fn unhooked(handle: u32, number: i64, parts: &Parts) -> Met {
    let Some(entry) = entry_of(parts, handle) else {
        return Met::new();
    };
    if number != 0 {
        return vec![(BAD_HANDLE_UNHOOKED, handle != 0), (ZERO_UNHOOKED, handle == 0)];
    }
    let chain = chain(parts, parts.loaded_line(handle).into());
    let between = |ends: [&usize; 2]| *ends[0] < entry && entry < *ends[1];
    let later = &parts.hook_entries()[entry + 1..];
    vec![
        (FROM_MIDDLE, chain.first().zip(chain.last()).is_some_and(|ends| between(ends.into()))),
        (FROM_FULL, is_full(parts)),
        (FIRST_OF_TWO, later.iter().any(|entry| entry[0] == handle)),
        (UNHOOKED_PAST_NONE, is_past_none(parts, Some(entry))),
    ]
}

fn listed(line: u32, place: u32, answer: &Answer, parts: &Parts, history: &History) -> Met {
    let chain = chain(parts, line);
    let handle = answer.values[0] as u32;
    match answer.number {
        0 => vec![
            (SECOND, place == 1),
            (LAST_LINE, line == 15),
            (NOT_REROUTED, history.rewritten.contains(&handle)),
            (LISTED_PAST_NONE, is_past_none(parts, chain.get(place as usize).copied())),
            (PAST_COUNT, handle as usize > parts.functions()),
            (PAST_RECORDS, handle as usize > FUNCTIONS),
        ],
        -4 => {
            let just_past = place as usize == chain.len();
            let mut rewritten = history.rewritten.iter();
            let on_line = |&handle: &u32| {
                u32::from(parts.current_line(handle)) == line
                    && u32::from(parts.loaded_line(handle)) != line
            };
            vec![
                (JUST_PAST, just_past && place > 0),
                (NOT_ON_NEW_LINE, just_past && rewritten.any(on_line)),
            ]
        }
        _ => vec![(LINE_16_LISTED, line == 16), (LINE_CUT, line as u8 <= 15 || line as u16 <= 15)],
    }
}

#[cfg(test)]
mod tests {
    use super::*;
    use crate::access::Access;
    use crate::calls::Call;
    use crate::model::Second;
    use second::board_b1::{image_of, plain_record};

    struct Board {
        second: Second,
        history: History,
    }

    impl Board {
        /// Functions on these lines, all with pin 1.
        fn new(lines: &[u8]) -> Self {
            let mut second = Second::new(Vec::new());
            let mut records = vec![plain_record(); lines.len()];
            records.iter_mut().zip(lines).for_each(|(record, line)| record[0x3C] = *line);
            let image = image_of(&records);
            assert_eq!(second.perform(&Call::Load { image, lent: 0 }).number, 0);
            Board { second, history: History::default() }
        }

        fn met_by(&mut self, call: ChainCall) -> Vec<&'static str> {
            let before = self.second.parts.clone();
            let answer = self.second.perform(&Call::Chain(call));
            let met = met(call, &answer, &before, &self.second.parts, &self.history);
            self.history.note(&Call::Chain(call), &answer, &before, &self.second.parts);
            met.into_iter().filter(|(_, met)| *met).map(|(what, _)| what).collect()
        }

        fn hook(&mut self, handle: u32) -> Vec<&'static str> {
            self.met_by(ChainCall::Hook { handle, handler: 7, parameter: 8 })
        }

        fn unhook(&mut self, handle: u32) -> Vec<&'static str> {
            self.met_by(ChainCall::Unhook { handle })
        }

        fn list(&mut self, line: u32, place: u32) -> Vec<&'static str> {
            self.met_by(ChainCall::List { line, place })
        }

        fn write_line(&mut self, handle: u32, value: u32) {
            let access = Access { width: 1, handle, register: 0x3C };
            let call = Call::WriteConfig { access, value };
            let before = self.second.parts.clone();
            let answer = self.second.perform(&call);
            self.history.note(&call, &answer, &before, &self.second.parts);
        }
    }

    #[test]
    fn hooks_and_chains() {
        let mut board = Board::new(&[5, 5, 5, 15, 16]);
        assert!(board.hook(1).is_empty());
        assert!(board.hook(4).is_empty());
        assert_eq!(board.hook(2), [BEFORE_LATER]);
        assert_eq!(board.hook(3), [BEFORE_LATER]);
        assert_eq!(board.hook(2), [ALREADY]);
        assert_eq!(board.hook(5), [NO_LINE, LINE_16_HOOKED]);
        assert_eq!(board.unhook(0), [ZERO_UNHOOKED]);
        assert_eq!(board.unhook(2), [FROM_MIDDLE]);
        assert_eq!(board.list(5, 1), [SECOND]);
        assert_eq!(board.hook(2), [AFTER_UNHOOK, BEFORE_LATER]);
        assert!(board.unhook(1).is_empty());
        assert_eq!(board.list(15, 0), [LAST_LINE]);
        assert_eq!(board.list(15, 1), [JUST_PAST]);
        board.write_line(4, 7);
        assert_eq!(board.list(15, 0), [LAST_LINE, NOT_REROUTED]);
        assert_eq!(board.list(7, 0), [NOT_ON_NEW_LINE]);
        assert_eq!(board.list(16, 0), [LINE_16_LISTED]);
        assert_eq!(board.list(0x105, 0), [LINE_CUT]);
        let mut full = Board::new(&[5; FUNCTIONS]);
        (1..16).for_each(|handle| assert!(full.hook(handle).is_empty()));
        assert_eq!(full.hook(16), [SIXTEENTH]);
        assert!(full.hook(16).is_empty());
        assert_eq!(full.unhook(1), [FROM_FULL]);
    }

    #[test]
    fn altered_arrays() {
        let mut board = Board::new(&[5, 5, 6, 0]);
        board.second.parts.hooks[..9].copy_from_slice(&[0, 1, 1, 9, 2, 2, 1, 3, 3]);
        assert_eq!(board.list(0, 0), [LISTED_PAST_NONE, PAST_COUNT]);
        assert_eq!(board.hook(1), [ALREADY, ALREADY_PAST_NONE]);
        board.second.parts.hooks[9] = 1;
        assert_eq!(board.unhook(1), [FIRST_OF_TWO, UNHOOKED_PAST_NONE]);
        assert_eq!(board.hook(9), [BAD_HANDLE_HOOKED]);
        assert_eq!(board.unhook(9), [BAD_HANDLE_UNHOOKED]);
        board.second.parts.hooks[46] = 5;
        assert_eq!(board.hook(2), [PAST_NONE, DROPS_NONE]);
        board.second.parts.hooks[43] = 5;
        assert_eq!(board.hook(3), [PAST_NONE, MOVES_NONE]);
        board.second.parts.hooks[45] = 17;
        assert_eq!(board.hook(4), [FULL, FULL_WITH_NONE]);
        assert_eq!(board.list(0, 1), [SECOND, LISTED_PAST_NONE, PAST_COUNT, PAST_RECORDS]);
        board.second.parts.records[0x3D] = 0;
        assert_eq!(board.hook(1), [NO_PIN, NO_ROUTE_HOOKED]);
    }
}
