//! The calls on hooks, chains and used marks, and those that always give -2.

use std::fmt;

#[derive(Clone, Copy)]
pub enum ChainCall {
    Hook { handle: u32, handler: u32, parameter: u32 },
    Unhook { handle: u32 },
    List { line: u32, place: u32 },
    GetUsed { handle: u32 },
    SetUsed { handle: u32, status: u32, call_back: u32 },
    SpecialCycle { bus: u8, message: u32 },
    GetRouting { handle: u32 },
    SetInterrupt { handle: u32, mode: u32 },
}

impl ChainCall {
    pub fn name(&self) -> &'static str {
        match self {
            ChainCall::Hook { .. } => "hook_interrupt",
            ChainCall::Unhook { .. } => "unhook_interrupt",
            ChainCall::List { .. } => "list_chain",
            ChainCall::GetUsed { .. } => "get_card_used",
            ChainCall::SetUsed { .. } => "set_card_used",
            ChainCall::SpecialCycle { .. } => "special_cycle",
            ChainCall::GetRouting { .. } => "get_routing",
            ChainCall::SetInterrupt { .. } => "set_interrupt",
        }
    }
}

impl fmt::Display for ChainCall {
    fn fmt(&self, f: &mut fmt::Formatter) -> fmt::Result {
        let name = self.name();
        match self {
            ChainCall::Hook { handle, handler, parameter } => {
                write!(f, "{name}, handle {handle:#x}, {handler:#x}, {parameter:#x}")
            }
            ChainCall::Unhook { handle }
            | ChainCall::GetUsed { handle }
            | ChainCall::GetRouting { handle } => write!(f, "{name}, handle {handle:#x}"),
            ChainCall::List { line, place } => write!(f, "{name} of line {line}, place {place}"),
            ChainCall::SetUsed { handle, status, call_back } => {
                write!(f, "{name}, handle {handle:#x}, status {status}, call-back {call_back:#x}")
            }
            ChainCall::SpecialCycle { bus, message } => {
                write!(f, "{name}, bus {bus}, message {message:#x}")
            }
            ChainCall::SetInterrupt { handle, mode } => {
                write!(f, "{name}, handle {handle:#x}, mode {mode:#x}")
            }
        }
    }
}
