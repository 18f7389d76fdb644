/* The structure behind the "_PCI" cookie, as a driver of any edition reads it: the draft's order
   and meaning. */
#include <string.h>
#include "check.h"
#include "pci_cookie.h"

/* Document 000's place of an entry, in bytes of a machine whose pointers have four. */
#define PLACE(place, name) \
    GIVES((place) / 4 * sizeof(void *), offsetof(struct pci_entry_points, name))

/* Of $08 and $0C the text says so itself; the others follow, a longword each. */
static void test_order(void) {
    PLACE(0x00, sub_cookie_jar);
    PLACE(0x04, version);
    PLACE(0x08, find_pci_device);
    PLACE(0x0C, find_pci_classcode);
    PLACE(0x10, read_config_byte);
    PLACE(0x14, read_config_word);
    PLACE(0x18, read_config_longword);
    PLACE(0x1C, fast_read_config_byte);
    PLACE(0x20, fast_read_config_word);
    PLACE(0x24, fast_read_config_longword);
    PLACE(0x28, write_config_byte);
    PLACE(0x2C, write_config_word);
    PLACE(0x30, write_config_longword);
    PLACE(0x34, hook_interrupt);
    PLACE(0x38, unhook_interrupt);
    PLACE(0x3C, special_cycle);
    PLACE(0x40, get_routing);
    PLACE(0x44, set_interrupt);
    PLACE(0x48, get_resource);
    PLACE(0x4C, get_card_used);
    PLACE(0x50, set_card_used);
    PLACE(0x54, read_mem_byte);
    PLACE(0x58, read_mem_word);
    PLACE(0x5C, read_mem_longword);
    PLACE(0x60, write_mem_byte);
    PLACE(0x64, write_mem_word);
    PLACE(0x68, write_mem_longword);
    PLACE(0x6C, read_io_byte);
    PLACE(0x70, read_io_word);
    PLACE(0x74, read_io_longword);
    PLACE(0x78, write_io_byte);
    PLACE(0x7C, write_io_word);
    PLACE(0x80, write_io_longword);
    PLACE(0x84, get_machine_id);
    PLACE(0x88, virt_to_bus);
    PLACE(0x8C, bus_to_virt);
    GIVES(36 * sizeof(void *), sizeof(struct pci_entry_points));
}

/* The name's four bytes, one of them other, turned round; and names that other cookies have. */
static void test_names(void) {
    static const ULONG others[] = {
        0,          1,          0x5F504348, 0x5F50434A, 0x5F504349 ^ 0x100, 0x5F514349, 0x7F504349,
        0x4943505F, 0x5F706369, 0x5F435055, 0x5043495F, 0xFFFFFFFF,         0x4349};
    uint32_t name = 0;
    for (const char *letter = "_PCI"; *letter != 0; letter++)
        name = name << 8 | (uint8_t)*letter;
    GIVES(name, PCI_COOKIE);
    GIVES(1, pci_find_cookie(PCI_COOKIE) != NULL);
    GIVES(1, pci_find_cookie(PCI_COOKIE) == pci_find_cookie(0x5F504349));
    for (size_t i = 0; i < sizeof others / sizeof others[0]; i++)
        GIVES(1, pci_find_cookie(others[i]) == NULL);
}

static const struct pci_entry_points *bios;
static UBYTE byte;
static UWORD word;
static ULONG longword;

/* An entry gives this number, and what it makes of the call is an operation of this width and space
   in this edition; all by the current board. */
#define ENTRY(wanted, entry, made, bytes, space, said) \
    do {                                               \
        memset(&told, 0xEE, sizeof told);              \
        GIVES(wanted, bios->entry);                    \
        GIVES(made, told.operation);                   \
        GIVES(bytes, told.width);                      \
        GIVES(space, told.io);                         \
        GIVES(said, told.c);                           \
    } while (0)

static void test_searches(void) {
    ENTRY(2, find_pci_device(0x0F0F0001, 1), OP_FIND_PCI_DEVICE, 0, 0, 1);
    ENTRY(PCI_BAD_VENDOR_ID, find_pci_device(0xFFFF0001, 1), OP_FIND_PCI_DEVICE, 0, 0, 1);
    ENTRY(1, find_pci_classcode(0xFF118000, 0), OP_FIND_PCI_CLASSCODE, 0, 0, 1);
}

static void test_configuration(void) {
    ENTRY(0, read_config_byte(2, 0x11, &byte), OP_READ_CONFIG, 1, 0, 0);
    ENTRY(0, read_config_word(2, 0x10, &word), OP_READ_CONFIG, 2, 0, 0);
    ENTRY(0, read_config_longword(2, 0x10, &longword), OP_READ_CONFIG, 4, 0, 0);
    GIVES(1, byte == 0x04 && word == 0x0400 && longword == 0x80000400);
    ENTRY(0x80, fast_read_config_byte(2, 0x13), OP_FAST_READ_CONFIG, 1, 0, 0);
    ENTRY(0x8000, fast_read_config_word(2, 0x12), OP_FAST_READ_CONFIG, 2, 0, 0);
    ENTRY(0x80000400, fast_read_config_longword(2, 0x10), OP_FAST_READ_CONFIG, 4, 0, 0);
    ENTRY(0, write_config_byte(2, 0x3C, 7), OP_WRITE_CONFIG, 1, 0, 0);
    ENTRY(0, write_config_word(2, 0x04, 3), OP_WRITE_CONFIG, 2, 0, 0);
    ENTRY(0, write_config_longword(2, 0x10, 0x80000400), OP_WRITE_CONFIG, 4, 0, 0);
}

static LONG handler(LONG *value, LONG internal) {
    return *value + internal;
}

static LONG callback(LONG function) {
    return function;
}

static void test_cards(void) {
    pci_callback *called = NULL;
    ENTRY(0, hook_interrupt(2, handler, &byte), OP_HOOK_INTERRUPT, 0, 0, 0);
    ENTRY(0, unhook_interrupt(2), OP_UNHOOK_INTERRUPT, 0, 0, 0);
    ENTRY(PCI_FUNC_NOT_SUPPORTED, special_cycle(0x41, 2), OP_SPECIAL_CYCLE, 0, 0, 0);
    ENTRY(PCI_FUNC_NOT_SUPPORTED, get_routing(), OP_GET_ROUTING, 0, 0, 0);
    ENTRY(PCI_FUNC_NOT_SUPPORTED, set_interrupt(), OP_SET_INTERRUPT, 0, 0, 0);
    ENTRY(PCI_BAD_HANDLE, get_resource(3), OP_GET_RESOURCE, 0, 0, 0);
    ENTRY(0, set_card_used(2, callback), OP_SET_CARD_USED, 0, 0, 0);
    ENTRY(2, get_card_used(2, &called), OP_GET_CARD_USED, 0, 0, 0);
    GIVES(1, called == callback);
    const struct resource_descriptor *rsc = (void *)bios->get_resource(2);
    GIVES(0x80001400, rsc->start + rsc->offset);
}

/* In bytes of one longword, so that no write hides another. */
static void test_memory(void) {
    ENTRY(0, write_mem_longword(2, 0x80001400, &(ULONG){0x11223344}), OP_WRITE_DATA, 4, 0, 1);
    ENTRY(0, write_mem_word(2, 0x80001402, &(UWORD){0x5566}), OP_WRITE_DATA, 2, 0, 1);
    ENTRY(0, write_mem_byte(2, 0x80001400, &(UBYTE){0x77}), OP_WRITE_DATA, 1, 0, 1);
    ENTRY(0, read_mem_longword(2, 0x80001400, &longword), OP_READ_DATA, 4, 0, 1);
    GIVES(0x55663377, longword);
    ENTRY(0, read_mem_word(2, 0x80001402, &word), OP_READ_DATA, 2, 0, 1);
    GIVES(0x5566, word);
    ENTRY(0, read_mem_byte(2, 0x80001400, &byte), OP_READ_DATA, 1, 0, 1);
    GIVES(0x77, byte);
    ENTRY(PCI_GENERAL_ERROR, read_mem_byte(2, 0x80000400, &byte), OP_READ_DATA, 1, 0, 1);
}

/* B1's I/O window offers bytes alone. */
static void test_io(void) {
    ENTRY(0, write_io_byte(2, 0x1105, &(UBYTE){0x88}), OP_WRITE_DATA, 1, 1, 1);
    ENTRY(0, read_io_byte(2, 0x1105, &byte), OP_READ_DATA, 1, 1, 1);
    GIVES(0x88, byte);
    ENTRY(PCI_FUNC_NOT_SUPPORTED, write_io_word(2, 0x1104, &(UWORD){1}), OP_WRITE_DATA, 2, 1, 1);
    ENTRY(PCI_FUNC_NOT_SUPPORTED, write_io_longword(2, 0x1104, &(ULONG){1}), OP_WRITE_DATA, 4, 1,
          1);
    ENTRY(PCI_FUNC_NOT_SUPPORTED, read_io_word(2, 0x1104, &word), OP_READ_DATA, 2, 1, 1);
    ENTRY(PCI_FUNC_NOT_SUPPORTED, read_io_longword(2, 0x1104, &longword), OP_READ_DATA, 4, 1, 1);
}

/* Of these no board is told, and a bad handle is none of theirs. */
static void test_not_modelled(void) {
    static const LONG handles[] = {1, 2, 3, 0, -1, PCI_BAD_HANDLE};
    memset(&told, 0xEE, sizeof told);
    struct pci_call before = told;
    LEAVES(PCI_FUNC_NOT_SUPPORTED, bios->get_machine_id());
    for (size_t i = 0; i < sizeof handles / sizeof handles[0]; i++) {
        longword = 9;
        LEAVES(0, bios->virt_to_bus(handles[i], 0x1000, &longword));
        GIVES(0, longword);
        longword = 9;
        LEAVES(0, bios->bus_to_virt(handles[i], 0x80000000, &longword));
        GIVES(0, longword);
    }
    GIVES(0, memcmp(&before, &told, sizeof told));
}

void test_cookie(void) {
    test_order();
    test_names();
    bios = pci_find_cookie(PCI_COOKIE);
    GIVES(1, bios->sub_cookie_jar == NULL);
    GIVES(1, bios->version);
    load_fresh();
    pci_use_board(&board, cells, 2064);
    pci_recorder = &keeper;
    test_searches();
    test_configuration();
    test_cards();
    test_memory();
    test_io();
    test_not_modelled();
    pci_recorder = NULL;
    pci_use_board(NULL, NULL, 0);
    GIVES(PCI_DEVICE_NOT_FOUND, bios->find_pci_device(0x0F0F0001, 0));
    GIVES(PCI_BAD_HANDLE, bios->read_mem_byte(2, 0x80001400, &byte));
}
