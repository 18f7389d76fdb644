//! Arguments of calls on hooks, chains and used marks, chosen with regard to the hooks that
//! stand.

use crate::access::Access;
use crate::arguments::handle;
use crate::calls::Call;
use crate::chain_calls::ChainCall;
use crate::model::Second;
use crate::parts::Parts;
use crate::random::Random;

/// The line of a function, in its registers and as loaded.
pub const LINE: usize = 0x3C;

/// A call on hooks, chains or used marks, or a write to a line register, which must not
/// reroute.
pub fn chain(random: &mut Random, second: &Second) -> Call {
    let parts = &second.parts;
    let handle = handle(random, parts);
    Call::Chain(match random.below(20) {
        0..=4 => hook(random, handle),
        5..=7 => ChainCall::Unhook { handle: hooked(random, parts) },
        8..=11 => ChainCall::List { line: line(random, parts), place: place(random) },
        12 | 13 => ChainCall::GetUsed { handle },
        14..=16 => set_used(random, handle),
        17 => unsupported(random, handle),
        _ => return line_write(random, parts),
    })
}

/// A hook of a handle. Handler and parameter are any numbers, 0 too.
pub fn hook(random: &mut Random, handle: u32) -> ChainCall {
    let (any, other) = (random.long(), random.long());
    let [handler, parameter] = random.pick(&[[any, other], [any, other], [0, any], [any, 0]]);
    ChainCall::Hook { handle, handler, parameter }
}

/// Mostly the handle of an entry of the hook array, 0 too.
fn hooked(random: &mut Random, parts: &Parts) -> u32 {
    let entry = random.below(parts.hook_entries().len());
    match random.one_in(3) {
        true => handle(random, parts),
        false => parts.hook_entries()[entry][0],
    }
}

/// Mostly the line of an entry's function, as loaded or as its register says now.
fn line(random: &mut Random, parts: &Parts) -> u32 {
    let (any, handle) = (random.long(), hooked(random, parts));
    let loaded = u32::from(parts.loaded_line(handle));
    match random.below(8) {
        0..=3 => loaded,
        4 => u32::from(parts.current_line(handle)),
        5 => random.within(0..=16) as u32,
        6 => random.pick(&[15, 16, 17, 255]),
        _ => random.pick(&[0x100 + loaded, 0x1_0000 + loaded, 0x8000_0000, u32::MAX, any]),
    }
}

/// One of a chain's first; at times a number that must not be cut to so few.
fn place(random: &mut Random) -> u32 {
    let any = random.long();
    match random.below(8) {
        0..=2 => 0,
        3..=5 => random.below(4) as u32,
        6 => random.below(18) as u32,
        _ => random.pick(&[0x100, 0x1_0000, 0x8000_0000, u32::MAX, any]),
    }
}

fn set_used(random: &mut Random, handle: u32) -> ChainCall {
    let (any, low) = (random.long(), random.below(4) as u32);
    let bad = [4, 5, 255, 0x100 + low, 0x1_0000 + low, 0x8000_0000 + low, u32::MAX, any];
    let status = match random.one_in(5) {
        true => random.pick(&bad),
        false => low,
    };
    let call_back = random.pick(&[any, any, any, 0]);
    ChainCall::SetUsed { handle, status, call_back }
}

fn unsupported(random: &mut Random, handle: u32) -> ChainCall {
    let any = random.long();
    match random.below(3) {
        0 => ChainCall::SpecialCycle { bus: random.byte(), message: any },
        1 => ChainCall::GetRouting { handle },
        _ => ChainCall::SetInterrupt { handle, mode: random.pick(&[0, 1, any]) },
    }
}

/// A write of another line to the register of a function, mostly of a hooked one.
fn line_write(random: &mut Random, parts: &Parts) -> Call {
    let access = Access { width: 1, handle: hooked(random, parts), register: LINE as u8 };
    Call::WriteConfig { access, value: random.within(0..=16) as u32 }
}
