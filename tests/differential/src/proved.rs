//! The proved code behind its C functions. This and the same for descriptors, chains and
//! scripts (resource_proved.rs, chain_proved.rs, script_proved.rs) and for the layers in C
//! (bios_layer.rs, driver_layer.rs, host_*.rs) is the only unsafe code of the tests.

use crate::access::{Access, DataAccess};
use crate::calls::{Answer, Call};
use crate::guards::{Guarded, GuardedBytes};
use crate::parts::Parts;
use crate::resource_proved::descriptor_step;
use exports::*;

/// What a value handed back holds before the call.
pub const UNSET: u32 = 0xDEAD_BEEF;

/// The lent parts and the cell buffer of the proved code, each between guards.
///
/// Every pointer may be written through, so that a write to what is only lent for
/// reading is seen by the comparison too.
pub struct Proved {
    pub header: Guarded<Header>,
    pub records: Guarded<Records>,
    pub registers: Guarded<Registers>,
    pub windows: Guarded<Windows>,
    pub cell_offsets: Guarded<CellOffsets>,
    pub hooks: Guarded<Hooks>,
    pub used: Guarded<UsedMarks>,
    pub cells: GuardedBytes,
}

impl Proved {
    pub fn new(parts: &Parts, cells: &[u8]) -> Self {
        Proved {
            header: Guarded::new(parts.header),
            records: Guarded::new(parts.records),
            registers: Guarded::new(parts.registers),
            windows: Guarded::new(parts.windows),
            cell_offsets: Guarded::new(parts.cell_offsets),
            hooks: Guarded::new(parts.hooks),
            used: Guarded::new(parts.used),
            cells: GuardedBytes::new(cells),
        }
    }

    pub fn parts(&self) -> Parts {
        Parts {
            header: self.header.value,
            records: self.records.value,
            registers: self.registers.value,
            windows: self.windows.value,
            cell_offsets: self.cell_offsets.value,
            hooks: self.hooks.value,
            used: self.used.value,
        }
    }

    pub fn cells(&self) -> &[u8] {
        self.cells.inside()
    }

    /// Performs a call; a fault is a write outside what was lent for writing.
    pub fn perform(&mut self, call: &Call) -> Result<Answer, String> {
        let answer = match call {
            Call::Load { image, lent } => self.load(image, *lent)?,
            Call::Reset { lent } => self.reset(*lent),
            Call::WriteImage { out } => self.write_image(out)?,
            Call::ListWindow { n } => self.list_window(*n)?,
            Call::CheckImage { image, room } => check_image(image, *room)?,
            Call::FindPciDevice { id, index, call_edition } => {
                self.find_pci_device(*id, *index, *call_edition)
            }
            Call::FindPciClasscode { class_code, index, call_edition } => {
                self.find_pci_classcode(*class_code, *index, *call_edition)
            }
            Call::ReadConfig(access) => self.read_config(*access)?,
            Call::FastReadConfig(access) => self.fast_read_config(*access)?,
            Call::WriteConfig { access, value } => self.write_config(*access, *value),
            Call::ReadData(access) => self.read_data(*access)?,
            Call::FastReadData(access) => self.fast_read_data(*access)?,
            Call::WriteData { access, value } => self.write_data(*access, *value),
            Call::BusToCpu { handle, address } => self.bus_to_cpu(*handle, *address)?,
            Call::CpuToBus { handle, address } => self.cpu_to_bus(*handle, *address)?,
            Call::GetResource { handle, out } => self.get_resource(*handle, out)?,
            Call::DescriptorStep { bytes, at } => descriptor_step(bytes, *at)?,
            Call::Chain(call) => self.chain(*call)?,
        };
        kept(self.intact(), "lent parts or cells").map(|()| answer)
    }

    pub fn intact(&self) -> bool {
        self.header.intact()
            && self.records.intact()
            && self.registers.intact()
            && self.windows.intact()
            && self.cell_offsets.intact()
            && self.hooks.intact()
            && self.used.intact()
            && self.cells.intact()
    }

    fn load(&mut self, image: &[u8], lent: usize) -> Result<Answer, String> {
        let mut lent_image = GuardedBytes::new(image);
        let mut place = Guarded::new(UNSET);
        let cells = &mut self.cells.inside_mut()[..lent];
        // SAFETY: each pointer is to an array or slice of its type and length, alive and
        // not otherwise used during the call.
        let number = unsafe {
            bios_load(
                lent_image.inside_mut().as_mut_ptr(),
                image.len(),
                &raw mut self.header.value,
                &raw mut self.records.value,
                &raw mut self.registers.value,
                &raw mut self.windows.value,
                &raw mut self.cell_offsets.value,
                &raw mut self.hooks.value,
                &raw mut self.used.value,
                cells.as_mut_ptr(),
                cells.len(),
                &raw mut place.value,
            )
        };
        kept(lent_image.intact() && lent_image.inside() == image, "image")?;
        kept(place.intact(), "place")?;
        Ok(Answer::verdict(number, place.value))
    }

    fn reset(&mut self, lent: usize) -> Answer {
        let cells = &mut self.cells.inside_mut()[..lent];
        // SAFETY: as in `load`.
        let number = unsafe {
            bios_reset(
                &raw mut self.header.value,
                &raw mut self.records.value,
                &raw mut self.registers.value,
                &raw mut self.windows.value,
                &raw mut self.cell_offsets.value,
                &raw mut self.hooks.value,
                &raw mut self.used.value,
                cells.as_mut_ptr(),
                cells.len(),
            )
        };
        Answer::number(number.into())
    }

    fn write_image(&mut self, out: &[u8]) -> Result<Answer, String> {
        let mut lent_out = GuardedBytes::new(out);
        let (header, records) = (&raw mut self.header.value, &raw mut self.records.value);
        // SAFETY: as in `load`.
        let number = unsafe {
            bios_write_image(header, records, lent_out.inside_mut().as_mut_ptr(), out.len())
        };
        kept(lent_out.intact(), "output buffer")?;
        Ok(Answer { out: lent_out.inside().to_vec(), ..Answer::number(number.into()) })
    }

    fn list_window(&mut self, n: u32) -> Result<Answer, String> {
        let mut values = Guarded::new([UNSET.into(); 6]);
        // SAFETY: as in `load`.
        let number =
            unsafe { bios_list_window(&raw mut self.windows.value, n, &raw mut values.value) };
        kept(values.intact(), "values")?;
        Ok(Answer { values: values.value, ..Answer::number(number.into()) })
    }

    fn find_pci_device(&mut self, id: u32, index: u32, call_edition: u32) -> Answer {
        let (header, registers) = (&raw mut self.header.value, &raw mut self.registers.value);
        // SAFETY: as in `load`.
        let number = unsafe { bios_find_pci_device(header, registers, id, index, call_edition) };
        Answer::number(number.into())
    }

    fn find_pci_classcode(&mut self, class_code: u32, index: u32, call_edition: u32) -> Answer {
        let (header, registers) = (&raw mut self.header.value, &raw mut self.registers.value);
        // SAFETY: as in `load`.
        let number =
            unsafe { bios_find_pci_classcode(header, registers, class_code, index, call_edition) };
        Answer::number(number.into())
    }

    fn read_config(&mut self, access: Access) -> Result<Answer, String> {
        let Access { width, handle, register } = access;
        let (header, registers) = (&raw mut self.header.value, &raw mut self.registers.value);
        let mut value = Guarded::new(UNSET);
        let value_at = &raw mut value.value;
        // SAFETY: as in `load`.
        let number =
            unsafe { bios_read_config(header, registers, width, handle, register, value_at) };
        kept(value.intact(), "value")?;
        Ok(Answer::read(number, value.value))
    }

    fn fast_read_config(&mut self, access: Access) -> Result<Answer, String> {
        let Access { width, handle, register } = access;
        let (header, registers) = (&raw mut self.header.value, &raw mut self.registers.value);
        let mut fault = Guarded::new(UNSET);
        let fault_at = &raw mut fault.value;
        // SAFETY: as in `load`.
        let value =
            unsafe { bios_fast_read_config(header, registers, width, handle, register, fault_at) };
        kept(fault.intact(), "fault flag")?;
        Ok(Answer::fast_read(value, fault.value))
    }

    fn write_config(&mut self, access: Access, value: u32) -> Answer {
        // SAFETY: as in `load`.
        let number = unsafe {
            bios_write_config(
                &raw mut self.header.value,
                &raw mut self.records.value,
                &raw mut self.registers.value,
                &raw mut self.windows.value,
                access.width,
                access.handle,
                access.register,
                value,
            )
        };
        Answer::number(number.into())
    }

    fn read_data(&mut self, access: DataAccess) -> Result<Answer, String> {
        let mut value = Guarded::new(UNSET);
        let cells = &mut self.cells.inside_mut()[..access.lent];
        // SAFETY: as in `load`.
        let number = unsafe {
            bios_read_data(
                &raw mut self.header.value,
                &raw mut self.records.value,
                &raw mut self.windows.value,
                &raw mut self.cell_offsets.value,
                cells.as_mut_ptr(),
                cells.len(),
                access.io,
                access.width,
                access.handle,
                access.address,
                access.call_edition,
                &raw mut value.value,
            )
        };
        kept(value.intact(), "value")?;
        Ok(Answer::read(number, value.value))
    }

    fn fast_read_data(&mut self, access: DataAccess) -> Result<Answer, String> {
        let mut fault = Guarded::new(UNSET);
        let cells = &mut self.cells.inside_mut()[..access.lent];
        // SAFETY: as in `load`.
        let value = unsafe {
            bios_fast_read_data(
                &raw mut self.header.value,
                &raw mut self.records.value,
                &raw mut self.windows.value,
                &raw mut self.cell_offsets.value,
                cells.as_mut_ptr(),
                cells.len(),
                access.io,
                access.width,
                access.handle,
                access.address,
                access.call_edition,
                &raw mut fault.value,
            )
        };
        kept(fault.intact(), "fault flag")?;
        Ok(Answer::fast_read(value, fault.value))
    }

    fn write_data(&mut self, access: DataAccess, value: u32) -> Answer {
        let cells = &mut self.cells.inside_mut()[..access.lent];
        // SAFETY: as in `load`.
        let number = unsafe {
            bios_write_data(
                &raw mut self.header.value,
                &raw mut self.records.value,
                &raw mut self.windows.value,
                &raw mut self.cell_offsets.value,
                cells.as_mut_ptr(),
                cells.len(),
                access.io,
                access.width,
                access.handle,
                access.address,
                value,
                access.call_edition,
            )
        };
        Answer::number(number.into())
    }

    fn bus_to_cpu(&mut self, handle: u32, address: u32) -> Result<Answer, String> {
        let (header, records) = (&raw mut self.header.value, &raw mut self.records.value);
        let mut cpu = Guarded::new(UNSET);
        // SAFETY: as in `load`.
        let number =
            unsafe { bios_bus_to_cpu(header, records, handle, address, &raw mut cpu.value) };
        kept(cpu.intact(), "CPU address")?;
        Ok(Answer::read(number, cpu.value))
    }

    fn cpu_to_bus(&mut self, handle: u32, address: u32) -> Result<Answer, String> {
        let (header, records) = (&raw mut self.header.value, &raw mut self.records.value);
        let mut bus = Guarded::new(UNSET);
        // SAFETY: as in `load`.
        let number =
            unsafe { bios_cpu_to_bus(header, records, handle, address, &raw mut bus.value) };
        kept(bus.intact(), "bus address")?;
        Ok(Answer::read(number, bus.value))
    }

    /// Gives the parts other contents, as a caller may.
    pub fn lend(&mut self, parts: &Parts) {
        self.header.value = parts.header;
        self.records.value = parts.records;
        self.registers.value = parts.registers;
        self.windows.value = parts.windows;
        self.cell_offsets.value = parts.cell_offsets;
        self.hooks.value = parts.hooks;
        self.used.value = parts.used;
    }

    pub fn lend_cells(&mut self, cells: &[u8]) {
        self.cells.inside_mut().copy_from_slice(cells);
    }
}

fn check_image(image: &[u8], room: usize) -> Result<Answer, String> {
    let mut lent_image = GuardedBytes::new(image);
    let mut place = Guarded::new(UNSET);
    let bytes = lent_image.inside_mut();
    // SAFETY: as in `load`.
    let number =
        unsafe { bios_check_image(bytes.as_mut_ptr(), bytes.len(), room, &raw mut place.value) };
    kept(lent_image.intact() && lent_image.inside() == image, "image")?;
    kept(place.intact(), "place")?;
    Ok(Answer::verdict(number, place.value))
}

pub fn kept(intact: bool, what: &str) -> Result<(), String> {
    match intact {
        true => Ok(()),
        false => Err(format!("the proved code wrote outside what it may: {what}")),
    }
}
