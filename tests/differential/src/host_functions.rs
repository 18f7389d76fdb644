//! The functions of host/pci_bios.h and host/pci_driver.h, which build.rs links, the table of
//! host/pci_cookie.h and the recorder of host/pci_record.h. A board is the lent parts in a row.

use crate::parts::Parts;
use std::ffi::{c_int, c_uint, c_void};

/// `struct pci_window`.
#[repr(C)]
pub struct HostWindow {
    pub io: c_int,
    pub start: u32,
    pub length: u32,
    pub handle: u32,
    pub base: u32,
    pub contested: c_int,
}

/// `struct pci_descriptor`, and `struct resource_descriptor` too.
#[repr(C)]
#[derive(Clone, Copy)]
pub struct HostDescriptor {
    pub next: u16,
    pub flags: u16,
    pub start: u32,
    pub length: u32,
    pub offset: u32,
    pub dmaoffset: u32,
}

/// `struct pci_lent`.
#[repr(C)]
pub struct HostLent {
    pub start: *const c_void,
    pub length: usize,
}

/// `struct pci_call`.
#[repr(C)]
pub struct HostCall {
    pub board: *const Parts,
    pub operation: c_uint,
    pub width: c_uint,
    pub io: c_int,
    pub register: u8,
    pub handle: u32,
    pub a: u32,
    pub b: u32,
    pub c: u32,
    pub own: HostLent,
    pub cells: *const HostLent,
}

/// `struct pci_answer`.
#[repr(C)]
pub struct HostAnswer {
    pub number: i32,
    pub refused: c_int,
    pub values: [u64; 6],
}

/// `struct pci_recorder`.
#[repr(C)]
pub struct HostRecorder {
    pub call: unsafe extern "C" fn(*const HostCall),
    pub answer: unsafe extern "C" fn(*const Parts, *const HostAnswer),
}

/// A handler, a parameter or a call-back entry: the layer keeps it and never goes there.
pub type Pointer = *const c_void;

extern "C" {
    pub static mut pci_recorder: *const HostRecorder;
}

extern "C" {
    pub fn pci_check_image(image: *const u8, length: usize, place: *mut u32) -> i32;
    pub fn pci_load(
        board: *mut Parts,
        cells: *mut u8,
        cells_length: usize,
        image: *const u8,
        length: usize,
        place: *mut u32,
    ) -> i32;
    pub fn pci_reset(board: *mut Parts, cells: *mut u8, cells_length: usize) -> i32;
    pub fn pci_write_image(board: *const Parts, out: *mut u8, length: usize) -> i32;
    pub fn pci_list_window(board: *const Parts, n: u32, window: *mut HostWindow) -> i32;
    pub fn pci_find_device(board: *const Parts, id: u32, index: u32, call_edition: u32) -> i32;
    pub fn pci_find_class(
        board: *const Parts,
        class_code: u32,
        index: u32,
        call_edition: u32,
    ) -> i32;
    pub fn pci_read_config(
        board: *const Parts,
        width: c_uint,
        handle: u32,
        register: u8,
        value: *mut u32,
    ) -> i32;
    pub fn pci_fast_read_config(
        board: *const Parts,
        width: c_uint,
        handle: u32,
        register: u8,
        fault: *mut c_int,
    ) -> u32;
    pub fn pci_write_config(
        board: *mut Parts,
        width: c_uint,
        handle: u32,
        register: u8,
        value: u32,
    ) -> i32;
    pub fn pci_read_data(
        board: *const Parts,
        cells: *const u8,
        cells_length: usize,
        io: c_int,
        width: c_uint,
        handle: u32,
        address: u32,
        call_edition: u32,
        value: *mut u32,
    ) -> i32;
    pub fn pci_fast_read_data(
        board: *const Parts,
        cells: *const u8,
        cells_length: usize,
        io: c_int,
        width: c_uint,
        handle: u32,
        address: u32,
        call_edition: u32,
        fault: *mut c_int,
    ) -> u32;
    pub fn pci_write_data(
        board: *mut Parts,
        cells: *mut u8,
        cells_length: usize,
        io: c_int,
        width: c_uint,
        handle: u32,
        address: u32,
        value: u32,
        call_edition: u32,
    ) -> i32;
    pub fn pci_bus_to_cpu(board: *const Parts, handle: u32, address: u32, cpu: *mut u32) -> i32;
    pub fn pci_cpu_to_bus(board: *const Parts, handle: u32, address: u32, bus: *mut u32) -> i32;
    pub fn pci_get_resource(board: *const Parts, handle: u32, out: *mut u8, length: usize) -> i32;
    pub fn pci_descriptor_step(
        bytes: *const u8,
        length: usize,
        at: usize,
        descriptor: *mut HostDescriptor,
        following: *mut usize,
    ) -> i32;
    pub fn pci_hook_interrupt(board: *mut Parts, handle: u32, handler: u32, parameter: u32) -> i32;
    pub fn pci_unhook_interrupt(board: *mut Parts, handle: u32) -> i32;
    pub fn pci_list_chain(
        board: *const Parts,
        line: u32,
        index: u32,
        handle: *mut u32,
        handler: *mut u32,
        parameter: *mut u32,
    ) -> i32;
    pub fn pci_get_card_used(
        board: *const Parts,
        handle: u32,
        status: *mut u32,
        call_back: *mut u32,
    ) -> i32;
    pub fn pci_set_card_used(board: *mut Parts, handle: u32, status: u32, call_back: u32) -> i32;
    pub fn pci_special_cycle(bus: u8, data: u32) -> i32;
    pub fn pci_get_routing() -> i32;
    pub fn pci_set_interrupt() -> i32;
}

extern "C" {
    pub fn pci_use_board(board: *mut Parts, cells: *mut u8, cells_length: usize);
    pub fn find_pci_device(id: u32, index: u16) -> i32;
    pub fn find_pci_classcode(classcode: u32, index: u16) -> i32;
    pub fn read_config_byte(handle: i32, register: u8, address: *mut u8) -> i32;
    pub fn read_config_word(handle: i32, register: u8, address: *mut u16) -> i32;
    pub fn read_config_longword(handle: i32, register: u8, address: *mut u32) -> i32;
    pub fn fast_read_config_byte(handle: i32, register: u8) -> u8;
    pub fn fast_read_config_word(handle: i32, register: u8) -> u16;
    pub fn fast_read_config_longword(handle: i32, register: u8) -> u32;
    pub fn write_config_byte(handle: i32, register: u8, value: u8) -> i32;
    pub fn write_config_word(handle: i32, register: u8, value: u16) -> i32;
    pub fn write_config_longword(handle: i32, register: u8, value: u32) -> i32;
    pub fn hook_interrupt(handle: i32, routine: Pointer, parameter: Pointer) -> i32;
    pub fn unhook_interrupt(handle: i32) -> i32;
    pub fn pci_list_handlers(
        line: u32,
        index: u32,
        handle: *mut i32,
        routine: *mut Pointer,
        parameter: *mut Pointer,
    ) -> i32;
    pub fn special_cycle(bus: u8, data: u32) -> i32;
    pub fn get_routing() -> i32;
    pub fn set_interrupt() -> i32;
    pub fn get_resource(handle: i32) -> isize;
    pub fn get_card_used(handle: i32, callback: *mut Pointer) -> i32;
    pub fn set_card_used(handle: i32, callback: Pointer) -> i32;
    pub fn read_mem_byte(handle: i32, address: u32, data: *mut u8) -> i32;
    pub fn read_mem_word(handle: i32, address: u32, data: *mut u16) -> i32;
    pub fn read_mem_longword(handle: i32, address: u32, data: *mut u32) -> i32;
    pub fn write_mem_byte(handle: i32, address: u32, data: u8) -> i32;
    pub fn write_mem_word(handle: i32, address: u32, data: u16) -> i32;
    pub fn write_mem_longword(handle: i32, address: u32, data: u32) -> i32;
    pub fn read_io_byte(handle: i32, address: u32, data: *mut u8) -> i32;
    pub fn read_io_word(handle: i32, address: u32, data: *mut u16) -> i32;
    pub fn read_io_longword(handle: i32, address: u32, data: *mut u32) -> i32;
    pub fn write_io_byte(handle: i32, address: u32, data: u8) -> i32;
    pub fn write_io_word(handle: i32, address: u32, data: u16) -> i32;
    pub fn write_io_longword(handle: i32, address: u32, data: u32) -> i32;
    pub fn fast_read_mem_byte(handle: i32, address: u32) -> u8;
    pub fn fast_read_mem_word(handle: i32, address: u32) -> u16;
    pub fn fast_read_mem_longword(handle: i32, address: u32) -> u32;
    pub fn fast_read_io_byte(handle: i32, address: u32) -> u8;
    pub fn fast_read_io_word(handle: i32, address: u32) -> u16;
    pub fn fast_read_io_longword(handle: i32, address: u32) -> u32;
}

extern "C" {
    pub fn draft_find_pci_device(id: u32, index: u16) -> i32;
    pub fn draft_find_pci_classcode(classcode: u32, index: u16) -> i32;
    pub fn draft_read_mem_byte(handle: i32, address: u32, data: *mut u8) -> i32;
    pub fn draft_read_mem_word(handle: i32, address: u32, data: *mut u16) -> i32;
    pub fn draft_read_mem_longword(handle: i32, address: u32, data: *mut u32) -> i32;
    pub fn draft_write_mem_byte(handle: i32, address: u32, data: *const u8) -> i32;
    pub fn draft_write_mem_word(handle: i32, address: u32, data: *const u16) -> i32;
    pub fn draft_write_mem_longword(handle: i32, address: u32, data: *const u32) -> i32;
    pub fn draft_read_io_byte(handle: i32, address: u32, data: *mut u8) -> i32;
    pub fn draft_read_io_word(handle: i32, address: u32, data: *mut u16) -> i32;
    pub fn draft_read_io_longword(handle: i32, address: u32, data: *mut u32) -> i32;
    pub fn draft_write_io_byte(handle: i32, address: u32, data: *const u8) -> i32;
    pub fn draft_write_io_word(handle: i32, address: u32, data: *const u16) -> i32;
    pub fn draft_write_io_longword(handle: i32, address: u32, data: *const u32) -> i32;
    pub fn draft_fast_read_mem_byte(handle: i32, address: u32) -> u8;
    pub fn draft_fast_read_mem_word(handle: i32, address: u32) -> u16;
    pub fn draft_fast_read_mem_longword(handle: i32, address: u32) -> u32;
    pub fn draft_fast_read_io_byte(handle: i32, address: u32) -> u8;
    pub fn draft_fast_read_io_word(handle: i32, address: u32) -> u16;
    pub fn draft_fast_read_io_longword(handle: i32, address: u32) -> u32;
    pub fn pci_find_cookie(name: u32) -> *const EntryPoints;
}

/// The name of the cookie, "_PCI".
pub const COOKIE: u32 = u32::from_be_bytes(*b"_PCI");

type Search = unsafe extern "C" fn(u32, u16) -> i32;
type Read<T> = unsafe extern "C" fn(i32, u32, *mut T) -> i32;
type Write<T> = unsafe extern "C" fn(i32, u32, *const T) -> i32;

/// `struct pci_entry_points`, in the order of document 000; of entries that are alike in both
/// texts only how many there are.
#[repr(C)]
pub struct EntryPoints {
    sub_cookie_jar: Pointer,
    pub version: u32,
    pub find_pci_device: Search,
    pub find_pci_classcode: Search,
    configuration: [Pointer; 9],
    interrupts_to_used: [Pointer; 8],
    pub read_mem_byte: Read<u8>,
    pub read_mem_word: Read<u16>,
    pub read_mem_longword: Read<u32>,
    pub write_mem_byte: Write<u8>,
    pub write_mem_word: Write<u16>,
    pub write_mem_longword: Write<u32>,
    pub read_io_byte: Read<u8>,
    pub read_io_word: Read<u16>,
    pub read_io_longword: Read<u32>,
    pub write_io_byte: Write<u8>,
    pub write_io_word: Write<u16>,
    pub write_io_longword: Write<u32>,
    not_modelled: [Pointer; 3],
}
