//! Interrupt chains: hooking, unhooking and listing.
//!
//! An entry with handle 0 is no hook, wherever it stands, and the entries after it count;
//! the last entry alone says whether there is room: settled in docs/DECISIONS.md. Calls
//! leave no such entry before a hook, so only on an altered array does it show.

use crate::board::{Board, FUNCTIONS};
use crate::number::{BAD_HANDLE, DEVICE_NOT_FOUND, GENERAL_ERROR, SET_FAILED, SUCCESSFUL};
use crate::record::{LINE, PIN};

const LAST_LINE: u8 = 15;

/// A handler on the chain of its function's line.
#[derive(Clone, Copy, Debug, Default, PartialEq, Eq)]
pub struct Hook {
    pub handle: u32,
    pub handler: u32,
    pub parameter: u32,
}

impl Board {
    /// Puts a handler last on the chain of the function's loaded line.
    pub fn hook_interrupt(&mut self, handle: u32, handler: u32, parameter: u32) -> i32 {
        let Some(place) = self.place(handle) else {
            return BAD_HANDLE;
        };
        let line = self.line_of(handle);
        if self.records[place][PIN] == 0 || line > LAST_LINE {
            return GENERAL_ERROR;
        }
        if self.hooked_at(handle).is_some() || self.hooks[FUNCTIONS - 1].handle != 0 {
            return SET_FAILED;
        }
        // After all hooks of this line and of the lines before it.
        let up_to_line = |hook: &Hook| hook.handle != 0 && self.line_of(hook.handle) <= line;
        let at = self.hooks.iter().rposition(up_to_line).map_or(0, |place| place + 1);
        self.hooks.copy_within(at..FUNCTIONS - 1, at + 1);
        self.hooks[at] = Hook { handle, handler, parameter };
        SUCCESSFUL
    }

    /// Takes the function's handler off its chain; the others keep their order.
    pub fn unhook_interrupt(&mut self, handle: u32) -> i32 {
        if self.place(handle).is_none() {
            return BAD_HANDLE;
        }
        let Some(at) = self.hooked_at(handle) else {
            return GENERAL_ERROR;
        };
        self.hooks.copy_within(at + 1.., at);
        self.hooks[FUNCTIONS - 1] = Hook::default();
        SUCCESSFUL
    }

    /// The number, then handle, handler and parameter at a place of a line's chain.
    pub fn list_chain(&self, line: u32, place: u32) -> (i32, u32, u32, u32) {
        if line > u32::from(LAST_LINE) {
            return (GENERAL_ERROR, 0, 0, 0);
        }
        let hooks = self.hooks.iter().filter(|hook| hook.handle != 0);
        let mut chain = hooks.filter(|hook| u32::from(self.line_of(hook.handle)) == line);
        match chain.nth(place as usize) {
            Some(hook) => (SUCCESSFUL, hook.handle, hook.handler, hook.parameter),
            None => (DEVICE_NOT_FOUND, 0, 0, 0),
        }
    }

    /// The place of a good handle's hook.
    fn hooked_at(&self, handle: u32) -> Option<usize> {
        self.hooks.iter().position(|hook| hook.handle == handle)
    }

    /// The line in the loaded register 3Ch; later writes do not reroute.
    /// A handle without a record, in an altered board only, reads as line 0.
    fn line_of(&self, handle: u32) -> u8 {
        let place = (handle as usize).wrapping_sub(1);
        self.records.get(place).map_or(0, |record| record[LINE])
    }
}
