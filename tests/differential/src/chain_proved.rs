//! Hooks, chains and used marks by the proved code, and the calls that always give -2.

use crate::calls::Answer;
use crate::chain_calls::ChainCall;
use crate::guards::Guarded;
use crate::proved::{kept, Proved, UNSET};
use exports::*;

impl Proved {
    pub fn chain(&mut self, call: ChainCall) -> Result<Answer, String> {
        Ok(match call {
            ChainCall::Hook { handle, handler, parameter } => {
                self.hook_interrupt(handle, handler, parameter)
            }
            ChainCall::Unhook { handle } => self.unhook_interrupt(handle),
            ChainCall::List { line, place } => self.list_chain(line, place)?,
            ChainCall::GetUsed { handle } => self.get_card_used(handle)?,
            ChainCall::SetUsed { handle, status, call_back } => {
                self.set_card_used(handle, status, call_back)
            }
            ChainCall::SpecialCycle { bus, message } => special_cycle(bus, message),
            ChainCall::GetRouting { handle } => get_routing(handle),
            ChainCall::SetInterrupt { handle, mode } => set_interrupt(handle, mode),
        })
    }

    fn hook_interrupt(&mut self, handle: u32, handler: u32, parameter: u32) -> Answer {
        // SAFETY: as in `load`.
        let number = unsafe {
            bios_hook_interrupt(
                &raw mut self.header.value,
                &raw mut self.records.value,
                &raw mut self.hooks.value,
                handle,
                handler,
                parameter,
            )
        };
        Answer::number(number.into())
    }

    fn unhook_interrupt(&mut self, handle: u32) -> Answer {
        let (header, hooks) = (&raw mut self.header.value, &raw mut self.hooks.value);
        // SAFETY: as in `load`.
        let number = unsafe { bios_unhook_interrupt(header, hooks, handle) };
        Answer::number(number.into())
    }

    fn list_chain(&mut self, line: u32, place: u32) -> Result<Answer, String> {
        let (records, hooks) = (&raw mut self.records.value, &raw mut self.hooks.value);
        let mut values = Guarded::new([UNSET.into(); 6]);
        // SAFETY: as in `load`.
        let number = unsafe { bios_list_chain(records, hooks, line, place, &raw mut values.value) };
        kept(values.intact(), "values")?;
        Ok(Answer { values: values.value, ..Answer::number(number.into()) })
    }

    fn get_card_used(&mut self, handle: u32) -> Result<Answer, String> {
        let (mut mark, mut call_back) = (Guarded::new(UNSET), Guarded::new(UNSET));
        // SAFETY: as in `load`.
        let number = unsafe {
            bios_get_card_used(
                &raw mut self.header.value,
                &raw mut self.used.value,
                handle,
                &raw mut mark.value,
                &raw mut call_back.value,
            )
        };
        kept(mark.intact() && call_back.intact(), "mark or call-back")?;
        Ok(Answer::used(number, mark.value, call_back.value))
    }

    fn set_card_used(&mut self, handle: u32, status: u32, call_back: u32) -> Answer {
        let (header, used) = (&raw mut self.header.value, &raw mut self.used.value);
        // SAFETY: as in `load`.
        let number = unsafe { bios_set_card_used(header, used, handle, status, call_back) };
        Answer::number(number.into())
    }
}

fn special_cycle(bus: u8, message: u32) -> Answer {
    // SAFETY: it is given numbers alone.
    Answer::number(unsafe { bios_special_cycle(bus, message) }.into())
}

fn get_routing(handle: u32) -> Answer {
    // SAFETY: it is given a number alone.
    Answer::number(unsafe { bios_get_routing(handle) }.into())
}

fn set_interrupt(handle: u32, mode: u32) -> Answer {
    // SAFETY: it is given numbers alone.
    Answer::number(unsafe { bios_set_interrupt(handle, mode) }.into())
}
