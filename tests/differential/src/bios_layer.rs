//! The proved code behind the C layer of host/pci_bios.h. What it is given is as in
//! proved.rs: parts, cells, buffers and results between guards, all of them set before.

use crate::access::{Access, DataAccess};
use crate::calls::{Answer, Call};
use crate::chain_calls::ChainCall;
use crate::guards::{Guarded, GuardedBytes};
use crate::host_functions::*;
use crate::host_reached::reach;
use crate::parts::Parts;
use crate::proved::{kept, UNSET};
use std::ffi::c_int;

/// The call as the layer can make it: an image check has no room, and the last two calls
/// that always give -2 have no arguments.
pub fn said(call: &Call) -> Option<Call> {
    match call {
        Call::CheckImage { image, .. } => {
            Some(Call::CheckImage { image: image.clone(), room: usize::MAX })
        }
        Call::Chain(ChainCall::GetRouting { .. }) => {
            Some(Call::Chain(ChainCall::GetRouting { handle: 0 }))
        }
        Call::Chain(ChainCall::SetInterrupt { .. }) => {
            Some(Call::Chain(ChainCall::SetInterrupt { handle: 0, mode: 0 }))
        }
        _ => None,
    }
}

struct Lent {
    board: Guarded<Parts>,
    cells: GuardedBytes,
}

/// A board and its cells. They are kept by their address, as the driver's layer keeps them
/// too, and only used while no call is made.
pub struct BiosLayer {
    lent: *mut Lent,
}

impl Drop for BiosLayer {
    fn drop(&mut self) {
        // SAFETY: `new` made it, and nothing else has it any more.
        drop(unsafe { Box::from_raw(self.lent) });
    }
}

impl BiosLayer {
    pub fn new(parts: &Parts, cells: &[u8]) -> Self {
        let board = Guarded::new(parts.clone());
        let lent = Lent { board, cells: GuardedBytes::new(cells) };
        BiosLayer { lent: Box::into_raw(Box::new(lent)) }
    }

    fn lent(&self) -> &Lent {
        // SAFETY: it is alive, and no call is made meanwhile.
        unsafe { &*self.lent }
    }

    fn lent_mut(&mut self) -> &mut Lent {
        // SAFETY: as above.
        unsafe { &mut *self.lent }
    }

    pub fn parts(&self) -> &Parts {
        &self.lent().board.value
    }

    pub fn cells(&self) -> &[u8] {
        self.lent().cells.inside()
    }

    pub fn lend(&mut self, parts: &Parts) {
        self.lent_mut().board.value = parts.clone();
    }

    pub fn lend_cells(&mut self, cells: &[u8]) {
        self.lent_mut().cells.inside_mut().copy_from_slice(cells);
    }

    pub fn board_at(&mut self) -> *mut Parts {
        &raw mut self.lent_mut().board.value
    }

    pub fn cells_at(&mut self) -> *mut u8 {
        self.lent_mut().cells.inside_mut().as_mut_ptr()
    }

    pub fn intact(&self) -> Result<(), String> {
        let Lent { board, cells } = self.lent();
        kept(board.intact() && cells.intact(), "board or cells")
    }

    /// Performs a call; a fault is a write outside what was lent for writing.
    pub fn perform(&mut self, call: &Call) -> Result<Answer, String> {
        let answer = match call {
            Call::Load { image, lent } => self.load(image, *lent)?,
            Call::Reset { lent } => {
                Answer::number(reach!(pci_reset(self.board_at(), self.cells_at(), *lent)).into())
            }
            Call::WriteImage { out } => self.write_image(out)?,
            Call::ListWindow { n } => self.list_window(*n)?,
            Call::CheckImage { image, .. } => check_image(image)?,
            Call::FindPciDevice { id, index, call_edition } => {
                let board = self.board_at();
                Answer::number(reach!(pci_find_device(board, *id, *index, *call_edition)).into())
            }
            Call::FindPciClasscode { class_code: class, index, call_edition } => {
                let board = self.board_at();
                Answer::number(reach!(pci_find_class(board, *class, *index, *call_edition)).into())
            }
            Call::ReadConfig(access) => self.read_config(*access)?,
            Call::FastReadConfig(access) => self.fast_read_config(*access)?,
            Call::WriteConfig { access, value } => self.write_config(*access, *value),
            Call::ReadData(access) => self.read_data(*access)?,
            Call::FastReadData(access) => self.fast_read_data(*access)?,
            Call::WriteData { access, value } => self.write_data(*access, *value),
            Call::BusToCpu { handle, address } => self.bus_to_cpu(*handle, *address)?,
            Call::CpuToBus { handle, address } => self.cpu_to_bus(*handle, *address)?,
            Call::GetResource { handle, out } => self.get_resource(*handle, out)?,
            Call::DescriptorStep { bytes, at } => descriptor_step(bytes, *at)?,
            Call::Chain(call) => self.chain(*call)?,
        };
        self.intact().map(|()| answer)
    }

    fn load(&mut self, image: &[u8], lent: usize) -> Result<Answer, String> {
        let (mut bytes, mut place) = (GuardedBytes::new(image), Guarded::new(UNSET));
        let number = reach!(pci_load(
            self.board_at(),
            self.cells_at(),
            lent,
            bytes.inside_mut().as_mut_ptr(),
            image.len(),
            &raw mut place.value,
        ));
        kept(bytes.intact() && bytes.inside() == image && place.intact(), "image or place")?;
        Ok(Answer::verdict(number, place.value))
    }

    fn write_image(&mut self, out: &[u8]) -> Result<Answer, String> {
        let mut lent_out = GuardedBytes::new(out);
        let out_at = lent_out.inside_mut().as_mut_ptr();
        let number = reach!(pci_write_image(self.board_at(), out_at, out.len()));
        kept(lent_out.intact(), "output buffer")?;
        Ok(Answer { out: lent_out.inside().to_vec(), ..Answer::number(number.into()) })
    }

    fn list_window(&mut self, n: u32) -> Result<Answer, String> {
        let unset = HostWindow {
            io: UNSET as c_int,
            start: UNSET,
            length: UNSET,
            handle: UNSET,
            base: UNSET,
            contested: UNSET as c_int,
        };
        let mut window = Guarded::new(unset);
        let number = reach!(pci_list_window(self.board_at(), n, &raw mut window.value));
        kept(window.intact(), "window")?;
        let HostWindow { io, start, length, handle, base, contested } = window.value;
        let values = [io as u32, start, length, handle, base, contested as u32].map(u64::from);
        Ok(Answer { values, ..Answer::number(number.into()) })
    }

    fn read_config(&mut self, access: Access) -> Result<Answer, String> {
        let Access { width, handle, register } = access;
        let mut value = Guarded::new(UNSET);
        let value_at = &raw mut value.value;
        let number = reach!(pci_read_config(self.board_at(), width, handle, register, value_at));
        kept(value.intact(), "value")?;
        Ok(Answer::read(number, value.value))
    }

    fn fast_read_config(&mut self, access: Access) -> Result<Answer, String> {
        let Access { width, handle, register } = access;
        let mut fault = Guarded::new(UNSET as c_int);
        let at = &raw mut fault.value;
        let value = reach!(pci_fast_read_config(self.board_at(), width, handle, register, at));
        kept(fault.intact(), "fault flag")?;
        Ok(Answer::fast_read(value, fault.value as u32))
    }

    fn write_config(&mut self, access: Access, value: u32) -> Answer {
        let Access { width, handle, register } = access;
        let number = reach!(pci_write_config(self.board_at(), width, handle, register, value));
        Answer::number(number.into())
    }

    fn read_data(&mut self, access: DataAccess) -> Result<Answer, String> {
        let DataAccess { io, width, handle, address, call_edition, lent } = access;
        let mut value = Guarded::new(UNSET);
        let number = reach!(pci_read_data(
            self.board_at(),
            self.cells_at(),
            lent,
            io as c_int,
            width,
            handle,
            address,
            call_edition,
            &raw mut value.value,
        ));
        kept(value.intact(), "value")?;
        Ok(Answer::read(number, value.value))
    }

    fn fast_read_data(&mut self, access: DataAccess) -> Result<Answer, String> {
        let DataAccess { io, width, handle, address, call_edition, lent } = access;
        let mut fault = Guarded::new(UNSET as c_int);
        let value = reach!(pci_fast_read_data(
            self.board_at(),
            self.cells_at(),
            lent,
            io as c_int,
            width,
            handle,
            address,
            call_edition,
            &raw mut fault.value,
        ));
        kept(fault.intact(), "fault flag")?;
        Ok(Answer::fast_read(value, fault.value as u32))
    }

    fn write_data(&mut self, access: DataAccess, value: u32) -> Answer {
        let DataAccess { io, width, handle, address, call_edition, lent } = access;
        let number = reach!(pci_write_data(
            self.board_at(),
            self.cells_at(),
            lent,
            io as c_int,
            width,
            handle,
            address,
            value,
            call_edition,
        ));
        Answer::number(number.into())
    }

    fn bus_to_cpu(&mut self, handle: u32, address: u32) -> Result<Answer, String> {
        let mut cpu = Guarded::new(UNSET);
        let at = &raw mut cpu.value;
        let number = reach!(pci_bus_to_cpu(self.board_at(), handle, address, at));
        kept(cpu.intact(), "CPU address")?;
        Ok(Answer::read(number, cpu.value))
    }

    fn cpu_to_bus(&mut self, handle: u32, address: u32) -> Result<Answer, String> {
        let mut bus = Guarded::new(UNSET);
        let at = &raw mut bus.value;
        let number = reach!(pci_cpu_to_bus(self.board_at(), handle, address, at));
        kept(bus.intact(), "bus address")?;
        Ok(Answer::read(number, bus.value))
    }

    fn get_resource(&mut self, handle: u32, out: &[u8]) -> Result<Answer, String> {
        let mut lent_out = GuardedBytes::new(out);
        let out_at = lent_out.inside_mut().as_mut_ptr();
        let number = reach!(pci_get_resource(self.board_at(), handle, out_at, out.len()));
        kept(lent_out.intact(), "output buffer")?;
        Ok(Answer { out: lent_out.inside().to_vec(), ..Answer::number(number.into()) })
    }

    fn chain(&mut self, call: ChainCall) -> Result<Answer, String> {
        let board = self.board_at();
        let number = match call {
            ChainCall::List { line, place } => return list_chain(board, line, place),
            ChainCall::GetUsed { handle } => return get_card_used(board, handle),
            ChainCall::Hook { handle, handler, parameter } => {
                reach!(pci_hook_interrupt(board, handle, handler, parameter))
            }
            ChainCall::Unhook { handle } => reach!(pci_unhook_interrupt(board, handle)),
            ChainCall::SetUsed { handle, status, call_back } => {
                reach!(pci_set_card_used(board, handle, status, call_back))
            }
            ChainCall::SpecialCycle { bus, message } => reach!(pci_special_cycle(bus, message)),
            ChainCall::GetRouting { .. } => reach!(pci_get_routing()),
            ChainCall::SetInterrupt { .. } => reach!(pci_set_interrupt()),
        };
        Ok(Answer::number(number.into()))
    }
}

fn check_image(image: &[u8]) -> Result<Answer, String> {
    let (mut bytes, mut place) = (GuardedBytes::new(image), Guarded::new(UNSET));
    let bytes_at = bytes.inside_mut().as_mut_ptr();
    let number = reach!(pci_check_image(bytes_at, image.len(), &raw mut place.value));
    kept(bytes.intact() && bytes.inside() == image && place.intact(), "image or place")?;
    Ok(Answer::verdict(number, place.value))
}

fn descriptor_step(bytes: &[u8], at: usize) -> Result<Answer, String> {
    let unset = HostDescriptor {
        next: UNSET as u16,
        flags: UNSET as u16,
        start: UNSET,
        length: UNSET,
        offset: UNSET,
        dmaoffset: UNSET,
    };
    let mut lent_bytes = GuardedBytes::new(bytes);
    let (mut found, mut following) = (Guarded::new(unset), Guarded::new(UNSET as usize));
    let number = reach!(pci_descriptor_step(
        lent_bytes.inside_mut().as_mut_ptr(),
        bytes.len(),
        at,
        &raw mut found.value,
        &raw mut following.value,
    ));
    kept(lent_bytes.intact() && lent_bytes.inside() == bytes, "descriptor bytes")?;
    kept(found.intact() && following.intact(), "descriptor or position")?;
    let HostDescriptor { next, flags, start, length, offset, dmaoffset } = found.value;
    let fields = [next.into(), flags.into(), start, length, offset, dmaoffset];
    Ok(Answer::step(number as u32, fields, following.value))
}

fn list_chain(board: *mut Parts, line: u32, place: u32) -> Result<Answer, String> {
    let [mut handle, mut handler, mut parameter] = [UNSET; 3].map(Guarded::new);
    let number = reach!(pci_list_chain(
        board,
        line,
        place,
        &raw mut handle.value,
        &raw mut handler.value,
        &raw mut parameter.value,
    ));
    kept(handle.intact() && handler.intact() && parameter.intact(), "results")?;
    Ok(Answer::hook(number, [handle.value, handler.value, parameter.value]))
}

fn get_card_used(board: *mut Parts, handle: u32) -> Result<Answer, String> {
    let [mut status, mut call_back] = [UNSET; 2].map(Guarded::new);
    let (status_at, call_back_at) = (&raw mut status.value, &raw mut call_back.value);
    let number = reach!(pci_get_card_used(board, handle, status_at, call_back_at));
    kept(status.intact() && call_back.intact(), "status or call-back")?;
    Ok(Answer::used(number, status.value, call_back.value))
}
