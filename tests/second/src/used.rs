//! Used marks of functions.

use crate::board::Board;
use crate::number::{BAD_HANDLE, GENERAL_ERROR, SUCCESSFUL};

const IN_USE_WITH_CALL_BACK: u32 = 2;
const LAST_STATUS: u32 = 3;

/// 0 free, 1 in use, 2 in use with a call-back, 3 may be taken over.
#[derive(Clone, Copy, Debug, Default, PartialEq, Eq)]
pub struct Used {
    pub status: u32,
    pub call_back: u32,
}

impl Board {
    /// Sets a function's used mark; only status 2 keeps the call-back address.
    pub fn set_card_used(&mut self, handle: u32, status: u32, call_back: u32) -> i32 {
        let Some(place) = self.place(handle) else {
            return BAD_HANDLE;
        };
        if status > LAST_STATUS {
            return GENERAL_ERROR;
        }
        let kept = match status {
            IN_USE_WITH_CALL_BACK => call_back,
            _ => 0,
        };
        self.used[place] = Used { status, call_back: kept };
        SUCCESSFUL
    }

    /// The number, then status and call-back address.
    pub fn get_card_used(&self, handle: u32) -> (i32, u32, u32) {
        match self.place(handle) {
            Some(place) => {
                let used = self.used[place];
                (SUCCESSFUL, used.status, used.call_back)
            }
            None => (BAD_HANDLE, 0, 0),
        }
    }
}
