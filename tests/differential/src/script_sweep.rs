//! Scripts of each operation on B1 with every byte of its header changed.

use crate::access::{Access, DataAccess};
use crate::boards::OFFSET;
use crate::calls::Call;
use crate::chain_calls::ChainCall;
use crate::parts::Parts;
use crate::proved::Proved;
use crate::script_encode::{encoded, Asked, HEADER};
use crate::script_left::Left;
use second::board_b1::{b1_image, b1_records, image_of};
use second::{Board, DRAFT_1_9, LATER_TEXT};

const CELLS: usize = 4096;
/// The offset of the sweep's second function, by which the CPU address of its I/O window wraps.
const SWEPT_OFFSET: u32 = 0xFFFF_FF00;

/// The load of B1 with an offset, a call of each operation with a byte of its header changed,
/// and one more call: the first four bytes to every value, the others in every bit. Where a call
/// names an edition there is one of draft 1.9 too.
pub fn sweep() -> Result<u64, String> {
    let mut proved = Proved::new(&Parts::of(&Board::new()), &[0xEE; CELLS]);
    let mut scripts = 0;
    let load = encoded(&swept_board());
    for asked in samples().into_iter().chain(draft_samples()) {
        let call = encoded(&asked);
        let after = encoded(&of(Call::ListWindow { n: 1 }, vec![3; 5]));
        for (at, byte) in changes(&call) {
            let mut script = [&load[..], &call, &after].concat();
            script[load.len() + at] = byte;
            let left = Left::of(&script, vec![0xEE; CELLS]);
            proved.lend_cells(&[0xEE; CELLS]);
            let outcome = left.compare(&mut proved, &script);
            let name = asked.call.name();
            outcome.map_err(|d| format!("script sweep, {name}, byte {at} is {byte:#x}: {d}"))?;
            scripts += 1;
        }
    }
    Ok(scripts)
}

/// The places in a header, each with the values that it is given.
fn changes(header: &[u8]) -> Vec<(usize, u8)> {
    let values = (0..4).flat_map(|at| (0..=255).map(move |byte| (at, byte)));
    let bits = (4..HEADER).flat_map(|at| (0..8).map(move |bit| (at, header[at] ^ 1 << bit)));
    values.chain(bits).collect()
}

/// A call of each operation in the order of their numbers. All that can be accepted on B1
/// are, but for the unhook.
pub fn samples() -> Vec<Asked> {
    let config = Access { width: 2, handle: 2, register: 4 };
    let (handle, out, call_edition) = (2, vec![9; 130], LATER_TEXT);
    let data = DataAccess { io: 1, width: 1, handle, address: 0x105, call_edition, lent: CELLS };
    let calls = [
        Call::Reset { lent: CELLS },
        Call::WriteImage { out: out.clone() },
        Call::FindPciDevice { id: 0x0001_0F0F, index: 1, call_edition },
        Call::FindPciClasscode { class_code: 0x0111_8055, index: 1, call_edition },
        Call::ReadConfig(config),
        Call::FastReadConfig(config),
        Call::WriteConfig { access: config, value: 1 },
        Call::ReadData(data),
        Call::FastReadData(data),
        Call::WriteData { access: data, value: 0x77 },
        Call::BusToCpu { handle, address: 0x8000_0001 },
        Call::CpuToBus { handle, address: 0x8000_0001 },
        Call::ListWindow { n: 2 },
        Call::GetResource { handle, out: out.clone() },
    ];
    let chain_calls = [
        ChainCall::Hook { handle, handler: 0x1234_5678, parameter: 0x9ABC_DEF0 },
        ChainCall::Unhook { handle },
        ChainCall::List { line: 5, place: 1 },
        ChainCall::GetUsed { handle },
        ChainCall::SetUsed { handle, status: 2, call_back: 0xFEDC_BA98 },
        ChainCall::SpecialCycle { bus: 1, message: 0x0102_0304 },
        ChainCall::GetRouting { handle },
        ChainCall::SetInterrupt { handle, mode: 1 },
    ];
    let load = of(Call::Load { image: b1_image(), lent: CELLS }, b1_image());
    let calls = calls.into_iter().chain(chain_calls.map(Call::Chain));
    [load].into_iter().chain(calls.map(|call| of(call, out.clone()))).collect()
}

/// The load of the sweep's board.
fn swept_board() -> Asked {
    let mut records = b1_records();
    records[1][OFFSET].copy_from_slice(&SWEPT_OFFSET.to_be_bytes());
    let image = image_of(&records);
    of(Call::Load { image: image.clone(), lent: CELLS }, image)
}

/// The calls that name an edition in draft 1.9, all accepted on the sweep's board.
fn draft_samples() -> Vec<Asked> {
    let (call_edition, address) = (DRAFT_1_9, SWEPT_OFFSET.wrapping_add(0x105));
    let data = DataAccess { io: 1, width: 1, handle: 2, address, call_edition, lent: CELLS };
    let calls = [
        Call::FindPciDevice { id: 0x0F0F_0001, index: 1, call_edition },
        Call::FindPciClasscode { class_code: 0x0711_8000, index: 1, call_edition },
        Call::ReadData(data),
        Call::FastReadData(data),
        Call::WriteData { access: data, value: 0x77 },
    ];
    calls.map(|call| of(call, Vec::new())).into()
}

fn of(call: Call, own: Vec<u8>) -> Asked {
    Asked { call, own }
}

#[cfg(test)]
mod tests {
    use super::*;

    /// In the edition that they name; with argument c 0, of the later text, the class alone.
    #[test]
    fn accepted_in_draft_1_9() {
        let draft: Vec<_> = draft_samples().iter().map(encoded).collect();
        let mut later = draft.clone();
        later.iter_mut().for_each(|call| call[19] = 0);
        let script = [vec![encoded(&swept_board())], draft, later].concat().concat();
        let left = Left::of(&script, vec![0xEE; CELLS]);
        let refused: Vec<_> = left.calls.iter().map(|call| call.refused).collect();
        assert_eq!(refused[..6], [false; 6]);
        assert_eq!(refused[6..], [true, false, true, true, true]);
    }
}
