//! What the C layers tell a recorder of each call, against the call that was made.

use crate::calls::{Answer, Call};
use crate::chain_calls::ChainCall;
use crate::host_functions::{pci_recorder, HostAnswer, HostCall, HostRecorder};
use crate::parts::Parts;
use crate::script_encode::{fields, is_refused};
use std::cell::RefCell;

/// The fields of a call that a recorder is told; of what is lent the lengths.
#[derive(Debug, PartialEq)]
struct Told {
    has_board: bool,
    operation: u8,
    width: u32,
    io: u32,
    register: u8,
    numbers: [u32; 4],
    own: usize,
    cells: Option<usize>,
}

#[derive(Debug, PartialEq)]
struct ToldAnswer {
    number: i32,
    refused: bool,
    values: [u64; 6],
}

thread_local! {
    static CALLS: RefCell<Vec<Told>> = const { RefCell::new(Vec::new()) };
    static ANSWERS: RefCell<Vec<ToldAnswer>> = const { RefCell::new(Vec::new()) };
}

static RECORDER: HostRecorder = HostRecorder { call: on_call, answer: on_answer };

pub fn start() {
    // SAFETY: the C layers are called by one thread alone.
    unsafe { pci_recorder = &raw const RECORDER }
}

unsafe extern "C" fn on_call(call: *const HostCall) {
    // SAFETY: it is called with a call, whose cells are none or lent.
    let (call, cells) = unsafe { (&*call, (*call).cells.as_ref()) };
    let told = Told {
        has_board: !call.board.is_null(),
        operation: call.operation as u8,
        width: call.width,
        io: call.io as u32,
        register: call.register,
        numbers: [call.handle, call.a, call.b, call.c],
        own: call.own.length,
        cells: cells.map(|cells| cells.length),
    };
    CALLS.with_borrow_mut(|calls| calls.push(told));
}

unsafe extern "C" fn on_answer(_: *const Parts, answer: *const HostAnswer) {
    // SAFETY: it is called with an answer.
    let HostAnswer { number, refused, values } = unsafe { &*answer };
    let told = ToldAnswer { number: *number, refused: *refused != 0, values: *values };
    ANSWERS.with_borrow_mut(|answers| answers.push(told));
}

/// How the last call with its answer differs from what was told since the one before. Of the
/// driver's layer a recorder has tokens for pointers, so of an answer the first value counts.
pub fn difference(call: &Call, answer: &Answer, by_driver: bool) -> Option<String> {
    let (calls, answers) = (CALLS.take(), ANSWERS.take());
    if matches!(call, Call::CheckImage { .. } | Call::DescriptorStep { .. }) {
        return (!calls.is_empty()).then(|| format!("recorded: {calls:?}"));
    }
    let mut expected = [expected_answer(call, answer)];
    let mut told = answers;
    if by_driver {
        expected.iter_mut().chain(&mut told).for_each(|answer| answer.values[1..].fill(0));
    }
    let call = [expected_call(call, by_driver)];
    match (calls == call, told == expected) {
        (false, _) => Some(format!("recorded: {calls:?}, made: {call:?}")),
        (true, false) => Some(format!("recorded: {told:?}, second: {expected:?}")),
        (true, true) => None,
    }
}

fn expected_call(call: &Call, by_driver: bool) -> Told {
    let ([operation, _, _, register], numbers) = fields(call);
    let (mut width, mut io, mut own, mut cells) = (0, 0, 0, None);
    match call {
        Call::Load { image, lent } => (own, cells) = (image.len(), Some(*lent)),
        Call::Reset { lent } => cells = Some(*lent),
        Call::WriteImage { out } | Call::GetResource { out, .. } => own = out.len(),
        Call::ReadConfig(access)
        | Call::FastReadConfig(access)
        | Call::WriteConfig { access, .. } => width = access.width,
        Call::ReadData(access) | Call::FastReadData(access) | Call::WriteData { access, .. } => {
            (width, io, cells) = (access.width, access.io, Some(access.lent));
        }
        _ => {}
    }
    let numbers = match by_driver {
        true => with_tokens(call, numbers),
        false => numbers,
    };
    let has_board = operation < 21;
    Told { has_board, operation, width, io, register, numbers, own, cells }
}

/// The driver's layer hands the handle to the board where a driver has pointers, and its
/// names have a written value's own width.
fn with_tokens(call: &Call, [handle, a, b, c]: [u32; 4]) -> [u32; 4] {
    let cut = |value: u32, width| value & (u32::MAX >> (32 - 8 * width));
    match call {
        Call::Chain(ChainCall::Hook { .. }) => [handle, handle, handle, c],
        Call::Chain(ChainCall::SetUsed { .. }) => [handle, a, handle, c],
        Call::WriteConfig { access, .. } => [handle, cut(a, access.width), b, c],
        Call::WriteData { access, .. } => [handle, a, cut(b, access.width), c],
        _ => [handle, a, b, c],
    }
}

fn expected_answer(call: &Call, answer: &Answer) -> ToldAnswer {
    let number = match call {
        Call::FastReadConfig(_) | Call::FastReadData(_) => 0,
        _ => answer.number as i32,
    };
    ToldAnswer { number, refused: is_refused(call, answer), values: answer.values }
}
