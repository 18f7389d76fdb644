//! Calls and answers as the bytes of a script, after the tables of docs/SCRIPT.md.

use crate::access::{Access, DataAccess};
use crate::calls::{Answer, Call};
use crate::chain_calls::ChainCall;

pub const HEADER: usize = 64;
/// Where a header has the length of the call's own buffer.
pub const OWN_LENGTH: usize = 60;

/// A call of a script. An image or output that the call has is its own buffer; any other
/// call may have one too, which it does not use.
pub struct Asked {
    pub call: Call,
    pub own: Vec<u8>,
}

/// The first four bytes of a header; then handle, a, b and c. What a call does not have is 0.
pub type Fields = ([u8; 4], [u32; 4]);

/// The header of a call and its own buffer.
pub fn encoded(asked: &Asked) -> Vec<u8> {
    let (bytes, longs) = fields(&asked.call);
    let mut script = bytes.to_vec();
    script.extend(longs.map(u32::to_be_bytes).as_flattened());
    with_own(script, &asked.own)
}

/// What stands there after the call.
pub fn answered(asked: &Asked, answer: &Answer) -> Vec<u8> {
    let number = match asked.call {
        Call::FastReadConfig(_) | Call::FastReadData(_) => 0,
        _ => answer.number as i32,
    };
    let mut script = number.to_be_bytes().to_vec();
    script.extend([is_refused(&asked.call, answer).into(), 0, 0, 0]);
    script.extend(answer.values.map(u64::to_be_bytes).as_flattened());
    match asked.call {
        Call::WriteImage { .. } | Call::GetResource { .. } => with_own(script, &answer.out),
        _ => with_own(script, &asked.own),
    }
}

/// A load or an image write has the number of its refusal, a fast read its fault flag; all
/// other refusals are below 0, and searches give handles.
pub fn is_refused(call: &Call, answer: &Answer) -> bool {
    match call {
        Call::Load { .. }
        | Call::WriteImage { .. }
        | Call::FastReadConfig(_)
        | Call::FastReadData(_) => answer.number != 0,
        _ => answer.number < 0,
    }
}

fn with_own(mut script: Vec<u8>, own: &[u8]) -> Vec<u8> {
    script.resize(OWN_LENGTH, 0);
    script.extend((own.len() as u32).to_be_bytes());
    script.extend(own);
    script
}

pub fn fields(call: &Call) -> Fields {
    match *call {
        Call::Load { .. } => plain(1, [0, 0, 0]),
        Call::Reset { .. } => plain(2, [0, 0, 0]),
        Call::WriteImage { .. } => plain(3, [0, 0, 0]),
        Call::FindPciDevice { id, index, call_edition } => search(4, id, index, call_edition),
        Call::FindPciClasscode { class_code, index, call_edition } => {
            search(5, class_code, index, call_edition)
        }
        Call::ReadConfig(access) => configuration(6, access, 0),
        Call::FastReadConfig(access) => configuration(7, access, 0),
        Call::WriteConfig { access, value } => configuration(8, access, value),
        Call::ReadData(access) => data(9, access, 0),
        Call::FastReadData(access) => data(10, access, 0),
        Call::WriteData { access, value } => data(11, access, value),
        Call::BusToCpu { handle, address } => plain(12, [handle, address, 0]),
        Call::CpuToBus { handle, address } => plain(13, [handle, address, 0]),
        Call::ListWindow { n } => plain(14, [0, n, 0]),
        Call::GetResource { handle, .. } => plain(15, [handle, 0, 0]),
        Call::Chain(call) => chain(call),
        Call::CheckImage { .. } | Call::DescriptorStep { .. } => panic!("{call} is in no script"),
    }
}

fn chain(call: ChainCall) -> Fields {
    match call {
        ChainCall::Hook { handle, handler, parameter } => plain(16, [handle, handler, parameter]),
        ChainCall::Unhook { handle } => plain(17, [handle, 0, 0]),
        ChainCall::List { line, place } => plain(18, [0, line, place]),
        ChainCall::GetUsed { handle } => plain(19, [handle, 0, 0]),
        ChainCall::SetUsed { handle, status, call_back } => plain(20, [handle, status, call_back]),
        ChainCall::SpecialCycle { bus, message } => ([21, 0, 0, bus], [0, message, 0, 0]),
        ChainCall::GetRouting { handle } => plain(22, [handle, 0, 0]),
        ChainCall::SetInterrupt { handle, mode } => plain(23, [handle, mode, 0]),
    }
}

fn plain(operation: u8, [handle, a, b]: [u32; 3]) -> Fields {
    ([operation, 0, 0, 0], [handle, a, b, 0])
}

fn search(operation: u8, sought: u32, index: u32, call_edition: u32) -> Fields {
    ([operation, 0, 0, 0], [0, sought, index, exchanged(call_edition)])
}

fn configuration(operation: u8, access: Access, value: u32) -> Fields {
    ([operation, access.width as u8, 0, access.register], [access.handle, value, 0, 0])
}

fn data(operation: u8, access: DataAccess, value: u32) -> Fields {
    let bytes = [operation, access.width as u8, access.io as u8, 0];
    (bytes, [access.handle, access.address, value, exchanged(access.call_edition)])
}

/// Argument c of an edition, and the edition of an argument c: 0 and 2 exchanged, so that a
/// header from before there were editions means the later text.
pub fn exchanged(number: u32) -> u32 {
    match number {
        0 => 2,
        2 => 0,
        number => number,
    }
}

#[cfg(test)]
mod tests {
    use super::*;

    #[test]
    fn a_call() {
        let of = |call_edition| {
            let (handle, address) = (0x0102_0304, 5);
            let access = DataAccess { io: 1, width: 2, handle, address, call_edition, lent: 0 };
            let call = Call::WriteData { access, value: 0xFFFE_FDFC };
            encoded(&Asked { call, own: vec![7, 8] })
        };
        let script = of(0x0506_0708);
        let start = [11, 2, 1, 0, 1, 2, 3, 4, 0, 0, 0, 5, 0xFF, 0xFE, 0xFD, 0xFC, 5, 6, 7, 8];
        assert_eq!(script[..20], start);
        assert_eq!(script[20..60], [0; 40]);
        assert_eq!(script[60..], [0, 0, 0, 2, 7, 8]);
        assert_eq!([0, 1, 2, 3].map(|edition| of(edition)[19]), [2, 1, 0, 3]);
    }

    #[test]
    fn an_answer() {
        let call = Call::GetResource { handle: 1, out: vec![1, 2, 3] };
        let answer = Answer { number: -7, values: [1, 0, 0, 0, 0, 0x0102], ..Answer::default() };
        let answer = Answer { out: vec![4, 5, 6], ..answer };
        let script = answered(&Asked { call, own: vec![1, 2, 3] }, &answer);
        assert_eq!(script[..16], [0xFF, 0xFF, 0xFF, 0xF9, 1, 0, 0, 0, 0, 0, 0, 0, 0, 0, 0, 1]);
        assert_eq!(script[16..54], [0; 38]);
        assert_eq!(script[54..], [1, 2, 0, 0, 0, 0, 0, 0, 0, 3, 4, 5, 6]);
    }

    /// A fast read has no number, and a search that finds a function is not refused.
    #[test]
    fn numbers_and_refusals() {
        let access = Access { width: 1, handle: 1, register: 0 };
        let fast = Asked { call: Call::FastReadConfig(access), own: Vec::new() };
        assert_eq!(answered(&fast, &Answer::fast_read(0xFF, 1))[..8], [0, 0, 0, 0, 1, 0, 0, 0]);
        let call = Call::FindPciDevice { id: 0, index: 0, call_edition: 1 };
        let search = Asked { call, own: Vec::new() };
        assert_eq!(answered(&search, &Answer::number(16))[..8], [0, 0, 0, 16, 0, 0, 0, 0]);
        let load = Asked { call: Call::Load { image: Vec::new(), lent: 0 }, own: Vec::new() };
        assert_eq!(answered(&load, &Answer::number(6))[..8], [0, 0, 0, 6, 1, 0, 0, 0]);
    }
}
