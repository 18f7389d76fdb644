/* A driver of draft 1.9, compiled as one: the names of pci_driver.h with the draft's meaning,
   beside test_driver.c in one program. */
#define PCI_DRIVER_EDITION 1
#include "check.h"
#include "pci_cookie.h"

static UBYTE byte;
static UWORD word;
static ULONG longword;

/* Handle 1 has no offset; handle 2 has 1000h, so the CPU sees its bins from 80001400h on, and its
   I/O window from 1100h. */
static void use_fresh(void) {
    load_fresh();
    pci_use_board(&board, cells, sizeof cells);
}

static void test_searches(void) {
    use_fresh();
    LEAVES(1, find_pci_device(0x0F0F0001, 0));
    LEAVES(2, find_pci_device(0x0F0F0001, 1));
    LEAVES(PCI_DEVICE_NOT_FOUND, find_pci_device(0x0F0F0001, 2));
    LEAVES(PCI_DEVICE_NOT_FOUND, find_pci_device(0x00010F0F, 0));
    LEAVES(PCI_DEVICE_NOT_FOUND, find_pci_device(0x0000FFFF, 0));
    LEAVES(PCI_BAD_VENDOR_ID, find_pci_device(0xFFFF0001, 0));
    LEAVES(2, find_pci_classcode(0xFF118000, 1));
    LEAVES(PCI_DEVICE_NOT_FOUND, find_pci_classcode(0x01118055, 0));
}

/* What is alike in both texts is one function. */
static void test_alike(void) {
    use_fresh();
    LEAVES(0, read_config_longword(2, 0x10, &longword));
    GIVES(0x80000400, longword);
    const struct resource_descriptor *rsc = (const struct resource_descriptor *)get_resource(2);
    GIVES(0x80000400, rsc->start);
    GIVES(0x1000, rsc->offset);
    ALTERS(0, set_card_used(2, PCI_CARD_IN_USE));
    ALTERS(0, write_config_word(2, 0x12, 0x9000));
    LEAVES(0x90000400, fast_read_config_longword(2, 0x10));
}

/* Order 1: the word at an address is the longword's low half, the byte its lowest. */
static void test_memory(void) {
    const ULONG data = 0x11223344;
    const UWORD low = 0x5566;
    const UBYTE lowest = 0x77;
    use_fresh();
    ALTERS(0, write_mem_longword(2, 0x80001400, &data));
    GIVES(0x11, cells[1024]);
    LEAVES(0, read_mem_longword(2, 0x80001400, &longword));
    GIVES(0x11223344, longword);
    ALTERS(0, write_mem_word(2, 0x80001402, &low));
    LEAVES(0, read_mem_word(2, 0x80001402, &word));
    GIVES(0x5566, word);
    ALTERS(0, write_mem_byte(2, 0x80001400, &lowest));
    LEAVES(0, read_mem_byte(2, 0x80001400, &byte));
    GIVES(0x77, byte);
    LEAVES(0x55663377, fast_read_mem_longword(2, 0x80001400));
    LEAVES(0x3377, fast_read_mem_word(2, 0x80001400));
    LEAVES(0x77, fast_read_mem_byte(2, 0x80001400));
    LEAVES(0x77, pci_fast_read_data(&board, cells, 2064, 0, 1, 2, 0x80000400, LATER, &(int){0}));
    ALTERS(0, write_mem_longword(1, 0x800003FC, &data));
    GIVES(0x44, cells[1023]);
}

/* Bus addresses are refused, and so is what lies past the window. */
static void test_refused_memory(void) {
    const ULONG data = 1;
    use_fresh();
    LEAVES(PCI_GENERAL_ERROR, write_mem_longword(2, 0x80000400, &data));
    LEAVES(PCI_GENERAL_ERROR, write_mem_longword(2, 0x80001800, &data));
    LEAVES(PCI_GENERAL_ERROR, write_mem_longword(2, 0x80001402, &data));
    LEAVES(PCI_BAD_HANDLE, write_mem_longword(3, 0x80001400, &data));
    longword = 9;
    LEAVES(PCI_GENERAL_ERROR, read_mem_longword(2, 0x80000400, &longword));
    GIVES(0, longword);
    word = 9;
    LEAVES(PCI_GENERAL_ERROR, read_mem_word(2, 0x800013FE, &word));
    GIVES(0, word);
    byte = 9;
    LEAVES(PCI_BAD_HANDLE, read_mem_byte(0, 0x80001400, &byte));
    GIVES(0, byte);
    LEAVES(0xFFFFFFFF, fast_read_mem_longword(2, 0x80001800));
    LEAVES(0xFFFF, fast_read_mem_word(2, 0x80001401));
    LEAVES(0xFF, fast_read_mem_byte(2, 0x80000400));
}

/* B1's I/O window offers bytes alone. */
static void test_io(void) {
    const UBYTE data = 0x88;
    use_fresh();
    ALTERS(0, write_io_byte(2, 0x110F, &data));
    GIVES(0x88, cells[2063]);
    LEAVES(PCI_GENERAL_ERROR, write_io_byte(2, 0x10F, &data));
    LEAVES(0, read_io_byte(2, 0x110F, &byte));
    GIVES(0x88, byte);
    LEAVES(0x88, fast_read_io_byte(2, 0x110F));
    LEAVES(0xFF, fast_read_io_byte(2, 0x1110));
    LEAVES(PCI_FUNC_NOT_SUPPORTED, write_io_word(2, 0x1100, &(UWORD){1}));
    LEAVES(PCI_FUNC_NOT_SUPPORTED, write_io_longword(2, 0x1100, &(ULONG){1}));
    LEAVES(PCI_FUNC_NOT_SUPPORTED, read_io_word(2, 0x1100, &word));
    LEAVES(PCI_FUNC_NOT_SUPPORTED, read_io_longword(2, 0x1100, &longword));
    LEAVES(0xFFFF, fast_read_io_word(2, 0x1100));
    LEAVES(0xFFFFFFFF, fast_read_io_longword(2, 0x1100));
}

/* Without a current board; `board` stays loaded and out of reach. */
static void test_no_board(void) {
    pci_use_board(NULL, NULL, 0);
    LEAVES(PCI_DEVICE_NOT_FOUND, find_pci_device(0x0F0F0001, 0));
    LEAVES(PCI_BAD_VENDOR_ID, find_pci_device(0xFFFF0001, 0));
    LEAVES(PCI_DEVICE_NOT_FOUND, find_pci_classcode(0x00118000, 0));
    LEAVES(PCI_BAD_HANDLE, read_mem_byte(1, 0x80000000, &byte));
    LEAVES(PCI_BAD_HANDLE, write_io_byte(2, 0x1100, &byte));
    LEAVES(0xFF, fast_read_mem_byte(1, 0x80000000));
}

/* An entry of the table is the function of that name here. */
#define ENTRY(name) GIVES(1, bios->name == name)

static void test_entries(const struct pci_entry_points *bios) {
    ENTRY(find_pci_device);
    ENTRY(find_pci_classcode);
    ENTRY(read_config_byte);
    ENTRY(read_config_word);
    ENTRY(read_config_longword);
    ENTRY(fast_read_config_byte);
    ENTRY(fast_read_config_word);
    ENTRY(fast_read_config_longword);
    ENTRY(write_config_byte);
    ENTRY(write_config_word);
    ENTRY(write_config_longword);
    ENTRY(hook_interrupt);
    ENTRY(unhook_interrupt);
    ENTRY(special_cycle);
    ENTRY(get_routing);
    ENTRY(set_interrupt);
    ENTRY(get_resource);
    ENTRY(get_card_used);
    ENTRY(set_card_used);
    ENTRY(get_machine_id);
    ENTRY(virt_to_bus);
    ENTRY(bus_to_virt);
}

static void test_data_entries(const struct pci_entry_points *bios) {
    ENTRY(read_mem_byte);
    ENTRY(read_mem_word);
    ENTRY(read_mem_longword);
    ENTRY(write_mem_byte);
    ENTRY(write_mem_word);
    ENTRY(write_mem_longword);
    ENTRY(read_io_byte);
    ENTRY(read_io_word);
    ENTRY(read_io_longword);
    ENTRY(write_io_byte);
    ENTRY(write_io_word);
    ENTRY(write_io_longword);
}

void test_draft(void) {
    test_searches();
    test_alike();
    test_memory();
    test_refused_memory();
    test_io();
    test_no_board();
    test_entries(pci_find_cookie(PCI_COOKIE));
    test_data_entries(pci_find_cookie(PCI_COOKIE));
}
