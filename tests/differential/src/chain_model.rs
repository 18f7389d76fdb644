//! Hooks, chains and used marks by the second implementation, and the calls that always
//! give -2.

use crate::calls::Answer;
use crate::chain_calls::ChainCall;
use second::Board;

pub fn answer(board: &mut Board, call: ChainCall) -> Answer {
    let number = match call {
        ChainCall::List { line, place } => {
            let (number, handle, handler, parameter) = board.list_chain(line, place);
            return Answer::hook(number, [handle, handler, parameter]);
        }
        ChainCall::GetUsed { handle } => {
            let (number, status, call_back) = board.get_card_used(handle);
            return Answer::used(number, status, call_back);
        }
        ChainCall::Hook { handle, handler, parameter } => {
            board.hook_interrupt(handle, handler, parameter)
        }
        ChainCall::Unhook { handle } => board.unhook_interrupt(handle),
        ChainCall::SetUsed { handle, status, call_back } => {
            board.set_card_used(handle, status, call_back)
        }
        ChainCall::SpecialCycle { bus, message } => board.special_cycle(bus, message),
        ChainCall::GetRouting { handle } => board.get_routing(handle),
        ChainCall::SetInterrupt { handle, mode } => board.set_interrupt(handle, mode),
    };
    Answer::number(number.into())
}
