//! The C functions of the proved library, as host/bios_library.h declares them too, the run of a
//! script, and the lent parts that they take.

use second::{FUNCTIONS, RECORD_LENGTH, WINDOWS};

pub const REGISTERS: usize = 256;

pub type Header = [u32; 4];
pub type Records = [u8; FUNCTIONS * RECORD_LENGTH];
pub type Registers = [u8; FUNCTIONS * REGISTERS];
pub type Windows = [u64; WINDOWS];
pub type CellOffsets = [u32; WINDOWS + 1];
pub type Hooks = [u32; 3 * FUNCTIONS];
pub type UsedMarks = [u32; 2 * FUNCTIONS];

extern "C" {
    pub fn bios_check_image(image: *const u8, length: usize, room: usize, place: *mut u32) -> i32;
    pub fn bios_load(
        image: *const u8,
        image_length: usize,
        header: *mut Header,
        records: *mut Records,
        registers: *mut Registers,
        windows: *mut Windows,
        cell_offsets: *mut CellOffsets,
        hooks: *mut Hooks,
        used: *mut UsedMarks,
        cells: *mut u8,
        cells_length: usize,
        place: *mut u32,
    ) -> i32;
    pub fn bios_reset(
        header: *const Header,
        records: *const Records,
        registers: *mut Registers,
        windows: *mut Windows,
        cell_offsets: *const CellOffsets,
        hooks: *mut Hooks,
        used: *mut UsedMarks,
        cells: *mut u8,
        cells_length: usize,
    ) -> i32;
    pub fn bios_write_image(
        header: *const Header,
        records: *const Records,
        out: *mut u8,
        out_length: usize,
    ) -> u32;
    pub fn bios_list_window(windows: *const Windows, n: u32, values: *mut [u64; 6]) -> i32;
    pub fn bios_find_pci_device(
        header: *const Header,
        registers: *const Registers,
        id: u32,
        index: u32,
        call_edition: u32,
    ) -> i32;
    pub fn bios_find_pci_classcode(
        header: *const Header,
        registers: *const Registers,
        class_code: u32,
        index: u32,
        call_edition: u32,
    ) -> i32;
    pub fn bios_read_config(
        header: *const Header,
        registers: *const Registers,
        width: u32,
        handle: u32,
        register: u8,
        value: *mut u32,
    ) -> i32;
    pub fn bios_fast_read_config(
        header: *const Header,
        registers: *const Registers,
        width: u32,
        handle: u32,
        register: u8,
        fault: *mut u32,
    ) -> u32;
    pub fn bios_write_config(
        header: *const Header,
        records: *const Records,
        registers: *mut Registers,
        windows: *mut Windows,
        width: u32,
        handle: u32,
        register: u8,
        value: u32,
    ) -> i32;
    pub fn bios_read_data(
        header: *const Header,
        records: *const Records,
        windows: *const Windows,
        cell_offsets: *const CellOffsets,
        cells: *const u8,
        cells_length: usize,
        io: u32,
        width: u32,
        handle: u32,
        address: u32,
        call_edition: u32,
        value: *mut u32,
    ) -> i32;
    pub fn bios_fast_read_data(
        header: *const Header,
        records: *const Records,
        windows: *const Windows,
        cell_offsets: *const CellOffsets,
        cells: *const u8,
        cells_length: usize,
        io: u32,
        width: u32,
        handle: u32,
        address: u32,
        call_edition: u32,
        fault: *mut u32,
    ) -> u32;
    pub fn bios_write_data(
        header: *const Header,
        records: *const Records,
        windows: *const Windows,
        cell_offsets: *const CellOffsets,
        cells: *mut u8,
        cells_length: usize,
        io: u32,
        width: u32,
        handle: u32,
        address: u32,
        value: u32,
        call_edition: u32,
    ) -> i32;
    pub fn bios_bus_to_cpu(
        header: *const Header,
        records: *const Records,
        handle: u32,
        address: u32,
        cpu: *mut u32,
    ) -> i32;
    pub fn bios_cpu_to_bus(
        header: *const Header,
        records: *const Records,
        handle: u32,
        address: u32,
        bus: *mut u32,
    ) -> i32;
    pub fn bios_get_resource(
        header: *const Header,
        records: *const Records,
        registers: *const Registers,
        windows: *const Windows,
        handle: u32,
        out: *mut u8,
        out_length: usize,
    ) -> i32;
    pub fn bios_descriptor_step(
        bytes: *const u8,
        length: usize,
        at: usize,
        fields: *mut [u32; 6],
        following: *mut usize,
    ) -> u32;
    pub fn bios_hook_interrupt(
        header: *const Header,
        records: *const Records,
        hooks: *mut Hooks,
        handle: u32,
        handler: u32,
        parameter: u32,
    ) -> i32;
    pub fn bios_unhook_interrupt(header: *const Header, hooks: *mut Hooks, handle: u32) -> i32;
    pub fn bios_list_chain(
        records: *const Records,
        hooks: *const Hooks,
        line: u32,
        index: u32,
        values: *mut [u64; 6],
    ) -> i32;
    pub fn bios_get_card_used(
        header: *const Header,
        used: *const UsedMarks,
        handle: u32,
        mark: *mut u32,
        call_back: *mut u32,
    ) -> i32;
    pub fn bios_set_card_used(
        header: *const Header,
        used: *mut UsedMarks,
        handle: u32,
        mark: u32,
        call_back: u32,
    ) -> i32;
    pub fn bios_special_cycle(bus: u8, message: u32) -> i32;
    pub fn bios_get_routing(handle: u32) -> i32;
    pub fn bios_set_interrupt(handle: u32, mode: u32) -> i32;
    pub fn bios_run_script(
        script: *mut u8,
        script_length: usize,
        header: *mut Header,
        records: *mut Records,
        registers: *mut Registers,
        windows: *mut Windows,
        cell_offsets: *mut CellOffsets,
        hooks: *mut Hooks,
        used: *mut UsedMarks,
        cells: *mut u8,
        cells_length: usize,
    ) -> usize;
}
