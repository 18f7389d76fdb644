//! The searches and data calls of draft 1.9 behind the C layer of host/pci_driver.h: each by its
//! name or, where the table of host/pci_cookie.h is given, by its entry.

use crate::access::DataAccess;
use crate::calls::{Answer, Call};
use crate::guards::Guarded;
use crate::host_functions::*;
use crate::host_reached::{note_entry, reach};
use crate::proved::{kept, UNSET};

/// The table, or none for the functions themselves.
pub type Table = Option<&'static EntryPoints>;

/// The table that the cookie leads to.
pub fn table() -> &'static EntryPoints {
    // SAFETY: it is constant, where there is one.
    let table = unsafe { pci_find_cookie(COOKIE).as_ref() };
    let table = table.expect("the cookie leads nowhere");
    assert_eq!(table.version, 1, "the table's version is another");
    table
}

/// Calls a function by its name, or by the name of its entry.
macro_rules! draft {
    ($table:ident: $name:ident or $entry:ident($($argument:expr),*)) => {
        match $table {
            None => reach!($name($($argument),*)),
            Some(table) => {
                note_entry(stringify!($entry));
                // SAFETY: as in `reach!`.
                unsafe { (table.$entry)($($argument),*) }
            }
        }
    };
}

/// A read into a variable of its width, which is set before.
macro_rules! read {
    ($table:ident: $name:ident or $entry:ident($access:ident) as $type:ty) => {{
        let (handle, address) = ($access.handle as i32, $access.address);
        let mut value = Guarded::new(UNSET as $type);
        let at = &raw mut value.value;
        let number = draft!($table: $name or $entry(handle, address, at));
        kept(value.intact(), "value")?;
        Ok(Answer::read(number, value.value.into()))
    }};
}

/// A write from a variable of its width, which must stay as it is.
macro_rules! write {
    ($table:ident: $name:ident or $entry:ident($access:ident, $value:ident) as $type:ty) => {{
        let (handle, address) = ($access.handle as i32, $access.address);
        let mut value = Guarded::new($value as $type);
        let at = &raw mut value.value;
        let number = draft!($table: $name or $entry(handle, address, at.cast_const()));
        kept(value.intact() && value.value == $value as $type, "data")?;
        Ok(Answer::number(number.into()))
    }};
}

pub fn perform(table: Table, call: &Call) -> Result<Answer, String> {
    let number = match *call {
        Call::ReadData(access) => return read(table, access),
        Call::FastReadData(access) => return Ok(fast_read(access)),
        Call::WriteData { access, value } => return write(table, access, value),
        Call::FindPciDevice { id, index, .. } => {
            draft!(table: draft_find_pci_device or find_pci_device(id, index as u16))
        }
        Call::FindPciClasscode { class_code: class, index, .. } => {
            draft!(table: draft_find_pci_classcode or find_pci_classcode(class, index as u16))
        }
        _ => panic!("{call} names no edition"),
    };
    Ok(Answer::number(number.into()))
}

fn read(table: Table, access: DataAccess) -> Result<Answer, String> {
    match (access.io, access.width) {
        (0, 1) => read!(table: draft_read_mem_byte or read_mem_byte(access) as u8),
        (0, 2) => read!(table: draft_read_mem_word or read_mem_word(access) as u16),
        (0, _) => read!(table: draft_read_mem_longword or read_mem_longword(access) as u32),
        (_, 1) => read!(table: draft_read_io_byte or read_io_byte(access) as u8),
        (_, 2) => read!(table: draft_read_io_word or read_io_word(access) as u16),
        _ => read!(table: draft_read_io_longword or read_io_longword(access) as u32),
    }
}

fn write(table: Table, access: DataAccess, value: u32) -> Result<Answer, String> {
    match (access.io, access.width) {
        (0, 1) => write!(table: draft_write_mem_byte or write_mem_byte(access, value) as u8),
        (0, 2) => write!(table: draft_write_mem_word or write_mem_word(access, value) as u16),
        (0, _) => {
            write!(table: draft_write_mem_longword or write_mem_longword(access, value) as u32)
        }
        (_, 1) => write!(table: draft_write_io_byte or write_io_byte(access, value) as u8),
        (_, 2) => write!(table: draft_write_io_word or write_io_word(access, value) as u16),
        _ => write!(table: draft_write_io_longword or write_io_longword(access, value) as u32),
    }
}

/// The table has no entries for these.
fn fast_read(access: DataAccess) -> Answer {
    let (handle, address) = (access.handle as i32, access.address);
    let value = match (access.io, access.width) {
        (0, 1) => reach!(draft_fast_read_mem_byte(handle, address)).into(),
        (0, 2) => reach!(draft_fast_read_mem_word(handle, address)).into(),
        (0, _) => reach!(draft_fast_read_mem_longword(handle, address)),
        (_, 1) => reach!(draft_fast_read_io_byte(handle, address)).into(),
        (_, 2) => reach!(draft_fast_read_io_word(handle, address)).into(),
        _ => reach!(draft_fast_read_io_longword(handle, address)),
    };
    Answer::fast_read(value, 0)
}
