//! The proved code behind the C layer of host/pci_driver.h; what it has no call for goes
//! through host/pci_bios.h to the same board. The numbers of handlers, parameters and
//! call-backs are handed over as pointers and must come back. Calls of draft 1.9 are made by
//! draft_layer.rs, every other one by the table of host/pci_cookie.h.

use crate::access::{Access, DataAccess};
use crate::bios_layer::{self, BiosLayer};
use crate::calls::{Answer, Call};
use crate::chain_calls::ChainCall;
use crate::draft_layer;
use crate::editions::{is_known, named};
use crate::guards::Guarded;
use crate::host_functions::*;
use crate::host_reached::{reach, settle};
use crate::parts::Parts;
use crate::proved::{kept, UNSET};
use crate::script_compose::some_width;
use second::{BASES, DESCRIPTOR_LENGTH, DRAFT_1_9};
use std::ptr;

/// The buffer for descriptors that the layer has for each handle.
const DESCRIPTORS: usize = BASES * DESCRIPTOR_LENGTH;

/// The call as the layer can make it, with as many cells as it was given: its names say
/// space, width and edition, an index has 16 bits, and no status is above 3.
pub fn said(call: &Call, cells: usize) -> Option<Call> {
    let configuration = |access: Access| Access { width: some_width(access.width), ..access };
    let data = |access: DataAccess| {
        let (io, width) = (access.io.min(1), some_width(access.width));
        let call_edition = some_edition(access.call_edition);
        DataAccess { io, width, call_edition, lent: cells, ..access }
    };
    Some(match *call {
        Call::FindPciDevice { id, index, call_edition } => {
            let (index, call_edition) = (index & 0xFFFF, some_edition(call_edition));
            Call::FindPciDevice { id, index, call_edition }
        }
        Call::FindPciClasscode { class_code, index, call_edition } => {
            let (index, call_edition) = (index & 0xFFFF, some_edition(call_edition));
            Call::FindPciClasscode { class_code, index, call_edition }
        }
        Call::ReadConfig(access) => Call::ReadConfig(configuration(access)),
        Call::FastReadConfig(access) => Call::FastReadConfig(configuration(access)),
        Call::WriteConfig { access, value } => {
            Call::WriteConfig { access: configuration(access), value }
        }
        Call::ReadData(access) => Call::ReadData(data(access)),
        Call::FastReadData(access) => Call::FastReadData(data(access)),
        Call::WriteData { access, value } => Call::WriteData { access: data(access), value },
        Call::GetResource { handle, .. } => Call::GetResource { handle, out: vec![0; DESCRIPTORS] },
        Call::Chain(ChainCall::SetUsed { handle, status, call_back }) => {
            // 0, 1 and 3 are no entries.
            let call_back = if call_back < 4 { 4 } else { call_back };
            Call::Chain(ChainCall::SetUsed { handle, status: status & 3, call_back })
        }
        _ => return bios_layer::said(call),
    })
}

fn some_edition(call_edition: u32) -> u32 {
    match is_known(call_edition) {
        true => call_edition,
        false => 1 + call_edition % 2,
    }
}

/// An answer as the layer shows it: a fast read without its flag, and a status in place of
/// the number 0, with a call-back for 2 alone.
pub fn seen(call: &Call, mut answer: Answer) -> Answer {
    match call {
        Call::FastReadConfig(_) | Call::FastReadData(_) => answer.number = 0,
        Call::Chain(ChainCall::GetUsed { .. }) => {
            let [status, call_back, ..] = answer.values;
            if answer.number == 0 {
                answer.number = (status as u32 as i32).into();
            }
            answer.values = [if status == 2 { call_back } else { 0 }, 0, 0, 0, 0, 0];
        }
        _ => {}
    }
    answer
}

/// The parts without the numbers that stand for a driver's pointers: which ones the layer
/// takes is its own matter.
pub fn without_tokens(parts: &Parts) -> Parts {
    let mut parts = parts.clone();
    parts.hooks.chunks_mut(3).for_each(|hook| hook[1..].fill(0));
    parts.used.chunks_mut(2).for_each(|used| used[1] = 0);
    parts
}

pub struct DriverLayer {
    bios: BiosLayer,
    /// Whether the next call of draft 1.9 is made by its entry in the table.
    by_entry: bool,
}

impl Drop for DriverLayer {
    fn drop(&mut self) {
        reach!(pci_use_board(ptr::null_mut(), ptr::null_mut(), 0));
    }
}

impl DriverLayer {
    pub fn new(parts: &Parts, cells: &[u8]) -> Self {
        let mut layer = DriverLayer { bios: BiosLayer::new(parts, cells), by_entry: false };
        layer.use_board();
        layer
    }

    pub fn parts(&self) -> &Parts {
        self.bios.parts()
    }

    pub fn cells(&self) -> &[u8] {
        self.bios.cells()
    }

    pub fn lend_cells(&mut self, cells: &[u8]) {
        self.bios.lend_cells(cells);
    }

    /// Gives the parts other contents and makes them the current board anew. The layer has
    /// no pointers for the hooks and call-backs that stand there, though half of them have
    /// the numbers that it takes itself: a driver is shown NULL, which `parts` then has.
    pub fn lend(&mut self, parts: &mut Parts) {
        let mut lent = parts.clone();
        for hook in lent.hooks.chunks_mut(3).filter(|hook| hook[1] % 2 == 0) {
            let token = hook[0];
            hook[1..].fill(token);
        }
        for (place, used) in lent.used.chunks_mut(2).enumerate() {
            used[1] = if used[1] % 2 == 0 { place as u32 + 1 } else { used[1] };
        }
        self.bios.lend(&lent);
        self.use_board();
        *parts = without_tokens(parts);
    }

    fn use_board(&mut self) {
        let length = self.bios.cells().len();
        reach!(pci_use_board(self.bios.board_at(), self.bios.cells_at(), length));
        settle(false);
    }

    pub fn perform(&mut self, call: &Call) -> Result<Answer, String> {
        let answer = match *call {
            _ if named(call) == Some(DRAFT_1_9) => self.draft(call)?,
            Call::FindPciDevice { id, index, .. } => {
                found(reach!(find_pci_device(id, index as u16)))
            }
            Call::FindPciClasscode { class_code, index, .. } => {
                found(reach!(find_pci_classcode(class_code, index as u16)))
            }
            Call::ReadConfig(access) => read_config(access)?,
            Call::FastReadConfig(access) => fast_read_config(access),
            Call::WriteConfig { access, value } => write_config(access, value),
            Call::ReadData(access) => read_data(access)?,
            Call::FastReadData(access) => fast_read_data(access),
            Call::WriteData { access, value } => write_data(access, value),
            Call::GetResource { handle, .. } => descriptors(handle),
            Call::Chain(call) => chain(call)?,
            _ => self.bios.perform(call)?,
        };
        self.bios.intact().map(|()| answer)
    }

    fn draft(&mut self, call: &Call) -> Result<Answer, String> {
        self.by_entry = !self.by_entry;
        draft_layer::perform(self.by_entry.then(draft_layer::table), call)
    }
}

fn found(number: i32) -> Answer {
    Answer::number(number.into())
}

/// A read into a variable of its width, which is set before.
macro_rules! read {
    ($name:ident($handle:expr, $at:expr) as $type:ty) => {{
        let mut value = Guarded::new(UNSET as $type);
        let number = reach!($name($handle, $at, &raw mut value.value));
        kept(value.intact(), "value")?;
        Ok(Answer::read(number, value.value.into()))
    }};
}

fn read_config(access: Access) -> Result<Answer, String> {
    let (handle, register) = (access.handle as i32, access.register);
    match access.width {
        1 => read!(read_config_byte(handle, register) as u8),
        2 => read!(read_config_word(handle, register) as u16),
        _ => read!(read_config_longword(handle, register) as u32),
    }
}

fn fast_read_config(access: Access) -> Answer {
    let (handle, register) = (access.handle as i32, access.register);
    let value = match access.width {
        1 => reach!(fast_read_config_byte(handle, register)).into(),
        2 => reach!(fast_read_config_word(handle, register)).into(),
        _ => reach!(fast_read_config_longword(handle, register)),
    };
    Answer::fast_read(value, 0)
}

fn write_config(access: Access, value: u32) -> Answer {
    let (handle, register) = (access.handle as i32, access.register);
    let number = match access.width {
        1 => reach!(write_config_byte(handle, register, value as u8)),
        2 => reach!(write_config_word(handle, register, value as u16)),
        _ => reach!(write_config_longword(handle, register, value)),
    };
    Answer::number(number.into())
}

fn read_data(access: DataAccess) -> Result<Answer, String> {
    let (handle, address) = (access.handle as i32, access.address);
    match (access.io, access.width) {
        (0, 1) => read!(read_mem_byte(handle, address) as u8),
        (0, 2) => read!(read_mem_word(handle, address) as u16),
        (0, _) => read!(read_mem_longword(handle, address) as u32),
        (_, 1) => read!(read_io_byte(handle, address) as u8),
        (_, 2) => read!(read_io_word(handle, address) as u16),
        _ => read!(read_io_longword(handle, address) as u32),
    }
}

fn fast_read_data(access: DataAccess) -> Answer {
    let (handle, address) = (access.handle as i32, access.address);
    let value = match (access.io, access.width) {
        (0, 1) => reach!(fast_read_mem_byte(handle, address)).into(),
        (0, 2) => reach!(fast_read_mem_word(handle, address)).into(),
        (0, _) => reach!(fast_read_mem_longword(handle, address)),
        (_, 1) => reach!(fast_read_io_byte(handle, address)).into(),
        (_, 2) => reach!(fast_read_io_word(handle, address)).into(),
        _ => reach!(fast_read_io_longword(handle, address)),
    };
    Answer::fast_read(value, 0)
}

fn write_data(access: DataAccess, value: u32) -> Answer {
    let (handle, address) = (access.handle as i32, access.address);
    let number = match (access.io, access.width) {
        (0, 1) => reach!(write_mem_byte(handle, address, value as u8)),
        (0, 2) => reach!(write_mem_word(handle, address, value as u16)),
        (0, _) => reach!(write_mem_longword(handle, address, value)),
        (_, 1) => reach!(write_io_byte(handle, address, value as u8)),
        (_, 2) => reach!(write_io_word(handle, address, value as u16)),
        _ => reach!(write_io_longword(handle, address, value)),
    };
    Answer::number(number.into())
}

/// The descriptors up to the one with the last mark, as bytes, with zeros after them.
fn descriptors(handle: u32) -> Answer {
    let mut out = Vec::new();
    let address = reach!(get_resource(handle as i32));
    let number = if address < 0 { address as i64 } else { 0 };
    let mut at = address as *const HostDescriptor;
    while number == 0 && out.len() < DESCRIPTORS {
        // SAFETY: the layer has six descriptors for each handle.
        let d = unsafe { at.read() };
        out.extend([d.next, d.flags].map(u16::to_be_bytes).as_flattened());
        let longs = [d.start, d.length, d.offset, d.dmaoffset];
        out.extend(longs.map(u32::to_be_bytes).as_flattened());
        if d.flags & 0x8000 != 0 {
            break;
        }
        at = at.wrapping_add(1);
    }
    out.resize(DESCRIPTORS, 0);
    Answer { out, ..Answer::number(number) }
}

fn chain(call: ChainCall) -> Result<Answer, String> {
    let number = match call {
        ChainCall::List { line, place } => return list_handlers(line, place),
        ChainCall::GetUsed { handle } => return get_used(handle),
        ChainCall::Hook { handle, handler, parameter } => {
            reach!(hook_interrupt(handle as i32, pointer(handler), pointer(parameter)))
        }
        ChainCall::Unhook { handle } => reach!(unhook_interrupt(handle as i32)),
        ChainCall::SetUsed { handle, status, call_back } => {
            let entry = if status == 2 { call_back } else { status };
            reach!(set_card_used(handle as i32, pointer(entry)))
        }
        ChainCall::SpecialCycle { bus, message } => reach!(special_cycle(bus, message)),
        ChainCall::GetRouting { .. } => reach!(get_routing()),
        ChainCall::SetInterrupt { .. } => reach!(set_interrupt()),
    };
    Ok(Answer::number(number.into()))
}

fn pointer(number: u32) -> Pointer {
    ptr::without_provenance(number as usize)
}

fn list_handlers(line: u32, place: u32) -> Result<Answer, String> {
    let mut handle = Guarded::new(UNSET as i32);
    let [mut routine, mut parameter] = [UNSET; 2].map(|number| Guarded::new(pointer(number)));
    let number = reach!(pci_list_handlers(
        line,
        place,
        &raw mut handle.value,
        &raw mut routine.value,
        &raw mut parameter.value,
    ));
    kept(handle.intact() && routine.intact() && parameter.intact(), "results")?;
    let pointers = [routine.value, parameter.value].map(|pointer| pointer.addr() as u64);
    let values = [handle.value as u32 as u64, pointers[0], pointers[1], 0, 0, 0];
    Ok(Answer { values, ..Answer::number(number.into()) })
}

fn get_used(handle: u32) -> Result<Answer, String> {
    let mut call_back = Guarded::new(pointer(UNSET));
    let number = reach!(get_card_used(handle as i32, &raw mut call_back.value));
    kept(call_back.intact(), "call-back")?;
    let values = [call_back.value.addr() as u64, 0, 0, 0, 0, 0];
    Ok(Answer { values, ..Answer::number(number.into()) })
}
