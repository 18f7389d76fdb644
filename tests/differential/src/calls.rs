//! The calls that both implementations perform, and what a call hands back.

use crate::access::{Access, DataAccess};
use crate::chain_calls::ChainCall;
use crate::parts::first_difference;
use std::fmt;

#[derive(Clone)]
pub enum Call {
    /// So many bytes of the cell buffer are lent.
    Load {
        image: Vec<u8>,
        lent: usize,
    },
    Reset {
        lent: usize,
    },
    /// What the output buffer holds before.
    WriteImage {
        out: Vec<u8>,
    },
    ListWindow {
        n: u32,
    },
    CheckImage {
        image: Vec<u8>,
        room: usize,
    },
    FindPciDevice {
        id: u32,
        index: u32,
        call_edition: u32,
    },
    FindPciClasscode {
        class_code: u32,
        index: u32,
        call_edition: u32,
    },
    ReadConfig(Access),
    FastReadConfig(Access),
    WriteConfig {
        access: Access,
        value: u32,
    },
    ReadData(DataAccess),
    FastReadData(DataAccess),
    WriteData {
        access: DataAccess,
        value: u32,
    },
    BusToCpu {
        handle: u32,
        address: u32,
    },
    CpuToBus {
        handle: u32,
        address: u32,
    },
    /// What the output buffer holds before.
    GetResource {
        handle: u32,
        out: Vec<u8>,
    },
    DescriptorStep {
        bytes: Vec<u8>,
        at: usize,
    },
    Chain(ChainCall),
}

impl Call {
    pub fn name(&self) -> &'static str {
        match self {
            Call::Load { .. } => "load",
            Call::Reset { .. } => "reset",
            Call::WriteImage { .. } => "write_image",
            Call::ListWindow { .. } => "list_window",
            Call::CheckImage { .. } => "check_image",
            Call::FindPciDevice { .. } => "find_pci_device",
            Call::FindPciClasscode { .. } => "find_pci_classcode",
            Call::ReadConfig(_) => "read_config",
            Call::FastReadConfig(_) => "fast_read_config",
            Call::WriteConfig { .. } => "write_config",
            Call::ReadData(_) => "read_data",
            Call::FastReadData(_) => "fast_read_data",
            Call::WriteData { .. } => "write_data",
            Call::BusToCpu { .. } => "bus_to_cpu",
            Call::CpuToBus { .. } => "cpu_to_bus",
            Call::GetResource { .. } => "get_resource",
            Call::DescriptorStep { .. } => "descriptor_step",
            Call::Chain(call) => call.name(),
        }
    }
}

impl fmt::Display for Call {
    fn fmt(&self, f: &mut fmt::Formatter) -> fmt::Result {
        let name = self.name();
        match self {
            Call::Load { image, lent } => {
                write!(f, "{name} of {} bytes, {lent} cells lent", image.len())
            }
            Call::Reset { lent } => write!(f, "{name}, {lent} cells lent"),
            Call::WriteImage { out } => write!(f, "{name}, {} bytes lent", out.len()),
            Call::ListWindow { n } => write!(f, "{name} {n}"),
            Call::CheckImage { image, room } => {
                write!(f, "{name} of {} bytes, room {room}", image.len())
            }
            Call::FindPciDevice { id: key, index, call_edition }
            | Call::FindPciClasscode { class_code: key, index, call_edition } => {
                write!(f, "{name} {key:#x}, index {index}, edition {call_edition:#x}")
            }
            Call::ReadConfig(access) | Call::FastReadConfig(access) => {
                write!(f, "{name}, {access}")
            }
            Call::WriteConfig { access, value } => write!(f, "{name}, {access}, value {value:#x}"),
            Call::ReadData(access) | Call::FastReadData(access) => write!(f, "{name}, {access}"),
            Call::WriteData { access, value } => write!(f, "{name}, {access}, value {value:#x}"),
            Call::BusToCpu { handle, address } | Call::CpuToBus { handle, address } => {
                write!(f, "{name}, handle {handle:#x}, address {address:#x}")
            }
            Call::GetResource { handle, out } => {
                write!(f, "{name}, handle {handle:#x}, {} bytes lent", out.len())
            }
            Call::DescriptorStep { bytes, at } => {
                write!(f, "{name} at {at} of {} bytes", bytes.len())
            }
            Call::Chain(call) => call.fmt(f),
        }
    }
}

/// What a call hands back: values that it does not have are 0.
#[derive(Default)]
pub struct Answer {
    /// The number. A fast read has none, and its fault flag stands here; of a descriptor
    /// step, 1 where it found a descriptor.
    pub number: i64,
    pub values: [u64; 6],
    /// The position after a descriptor step.
    pub following: usize,
    /// The bytes left in the call's own buffer.
    pub out: Vec<u8>,
}

impl Answer {
    pub fn number(number: i64) -> Self {
        Answer { number, ..Answer::default() }
    }

    /// An image check's answer: the number and the place.
    pub fn verdict(number: impl Into<i64>, place: u32) -> Self {
        Answer::with_value(number.into(), place)
    }

    /// A plain read's or a conversion's answer: the number and the value.
    pub fn read(number: i32, value: u32) -> Self {
        Answer::with_value(number.into(), value)
    }

    /// A fast read's answer: the value, and 1 where it was refused.
    pub fn fast_read(value: u32, fault: u32) -> Self {
        Answer::with_value(fault.into(), value)
    }

    /// A chain listing's answer: the number, then handle, handler and parameter.
    pub fn hook(number: i32, [handle, handler, parameter]: [u32; 3]) -> Self {
        let values = [handle.into(), handler.into(), parameter.into(), 0, 0, 0];
        Answer { values, ..Answer::number(number.into()) }
    }

    /// The answer of asking for a used mark: the number, then status and call-back.
    pub fn used(number: i32, status: u32, call_back: u32) -> Self {
        let values = [status.into(), call_back.into(), 0, 0, 0, 0];
        Answer { values, ..Answer::number(number.into()) }
    }

    /// A descriptor step's answer: whether it found one, its fields and the position after.
    pub fn step(found: u32, fields: [u32; 6], following: usize) -> Self {
        Answer { values: fields.map(u64::from), following, ..Answer::number(found.into()) }
    }

    fn with_value(number: i64, value: u32) -> Self {
        Answer { values: [value.into(), 0, 0, 0, 0, 0], ..Answer::number(number) }
    }

    /// The first place where this answer, the proved code's, differs from `second`'s.
    pub fn first_difference(&self, second: &Answer) -> Option<String> {
        if self.number != second.number {
            return Some(format!("number: proved {}, second {}", self.number, second.number));
        }
        first_difference("values", &self.values, &second.values)
            .or_else(|| first_difference("following", &[self.following], &[second.following]))
            .or_else(|| first_difference("out", &self.out, &second.out))
    }
}
