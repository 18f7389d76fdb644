//! The text by which a caller of a search or data call goes. A board image's edition is
//! another thing.

use crate::number::FUNC_NOT_SUPPORTED;

/// Source document 000.
pub const DRAFT_1_9: u32 = 1;
/// Source document 001.
pub const LATER_TEXT: u32 = 2;

/// An edition that a call may name.
#[derive(Clone, Copy)]
pub(crate) enum CallEdition {
    Draft1_9,
    LaterText,
}

impl CallEdition {
    /// The edition of a number. A call asks this before all else.
    pub(crate) fn named(call_edition: u32) -> Result<CallEdition, i32> {
        match call_edition {
            DRAFT_1_9 => Ok(CallEdition::Draft1_9),
            LATER_TEXT => Ok(CallEdition::LaterText),
            _ => Err(FUNC_NOT_SUPPORTED),
        }
    }
}
