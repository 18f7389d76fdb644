//! What calls did since the board was loaded, reset or altered, where the parts do not show it.

use crate::access::DataAccess;
use crate::calls::{Answer, Call};
use crate::chain_calls::ChainCall;
use crate::parts::Parts;
use crate::status_met::{cleared, STATUS};
use std::collections::{BTreeMap, BTreeSet};

#[derive(Default)]
pub struct History {
    /// The functions that were unhooked and are not hooked again.
    pub unhooked: BTreeSet<u32>,
    /// The hooked ones whose line register a write gave another value than is loaded.
    pub rewritten: BTreeSet<u32>,
    /// The last data write, where no window was moved and no cell changed since.
    pub written: Option<DataAccess>,
    /// By handle, the bits of 06h and 07h that writes cleared.
    pub cleared: BTreeMap<u32, [u8; STATUS.len()]>,
}

impl History {
    /// Takes in a call with its answer, the parts before it and those that it left.
    pub fn note(&mut self, call: &Call, answer: &Answer, before: &Parts, after: &Parts) {
        match (call, answer.number) {
            (Call::Load { .. } | Call::Reset { .. }, 0) => *self = History::default(),
            (Call::Chain(ChainCall::Hook { handle, .. }), 0) => {
                self.unhooked.remove(handle);
            }
            (Call::Chain(ChainCall::Unhook { handle }), 0) => {
                self.unhooked.insert(*handle);
                self.rewritten.remove(handle);
            }
            (Call::WriteData { access, .. }, 0) => self.written = Some(*access),
            (Call::WriteConfig { access, value }, 0) => {
                self.written = None;
                let handle = access.handle;
                let kept = self.cleared.entry(handle).or_default().iter_mut();
                kept.zip(cleared(before, *access, *value)).for_each(|(kept, bits)| *kept |= bits);
                let hooked = after.hook_entries().iter().any(|entry| entry[0] == handle);
                if hooked && after.current_line(handle) != after.loaded_line(handle) {
                    self.rewritten.insert(handle);
                }
            }
            _ => {}
        }
    }
}
