/* Numbers and results as both layers pass them on, where a layer that cuts or drops one would show:
   numbers that are good only if they are cut, spaces of every number, and variables that held
   something else before the call. */
#include <limits.h>
#include <string.h>
#include "by_width.h"
#include "check.h"

/* A call's result goes to `got` of a type, which is no answer before: the number and the result. */
#define RESULT(type, number, result, call) \
    do {                                   \
        type got = (type)0xA5A5A5A5;       \
        LEAVES(number, call);              \
        GIVES(result, got);                \
    } while (0)

/* The same for a fast read: its value, and the fault flag. */
#define FAST(value, flag, call) \
    do {                        \
        int fault = 77;         \
        LEAVES(value, call);    \
        GIVES(flag, fault);     \
    } while (0)

static uint8_t out[200];

static LONG handler(LONG *value, LONG internal) {
    return *value + internal;
}

static LONG callback(LONG function) {
    return function;
}

/* Both functions are hooked and have call-backs, so that a handle that is cut finds all it needs.
 */
static void use_hooked(void) {
    load_fresh();
    pci_use_board(&board, cells, sizeof cells);
    for (LONG handle = 1; handle <= 2; handle++) {
        GIVES(0, hook_interrupt(handle, handler, out));
        GIVES(0, set_card_used(handle, callback));
    }
}

static void check_chain(uint32_t line, uint32_t index, int32_t number) {
    uint32_t got[3] = {9, 9, 9};
    LONG handle = 9;
    pci_handler *routine = handler;
    void *parameter = out;
    LEAVES(number, pci_list_chain(&board, line, index, &got[0], &got[1], &got[2]));
    GIVES(0, got[0] | got[1] | got[2]);
    LEAVES(number, pci_list_handlers(line, index, &handle, &routine, &parameter));
    GIVES(1, handle == 0 && routine == NULL && parameter == NULL);
}

/* The calls of pci_bios.h with a bad handle: all that is needed beside the handle is right. */
static void check_bios_handle(uint32_t bad) {
    uint32_t status = 9, address = 9;
    RESULT(uint32_t, -9, 0, pci_read_config(&board, 4, bad, 0x10, &got));
    FAST(0xFF, 1, pci_fast_read_config(&board, 1, bad, 0x10, &fault));
    FAST(0xFFFF, 1, pci_fast_read_config(&board, 2, bad, 0x10, &fault));
    FAST(0xFFFFFFFF, 1, pci_fast_read_config(&board, 4, bad, 0x10, &fault));
    LEAVES(-9, pci_write_config(&board, 4, bad, 0x10, 0x90000000));
    RESULT(uint32_t, -9, 0, pci_read_data(&board, cells, 2064, 0, 4, bad, 0x80000400, LATER, &got));
    FAST(0xFF, 1, pci_fast_read_data(&board, cells, 2064, 1, 1, bad, 0x100, LATER, &fault));
    FAST(0xFFFFFFFF, 1,
         pci_fast_read_data(&board, cells, 2064, 0, 4, bad, 0x80000000, LATER, &fault));
    LEAVES(-9, pci_write_data(&board, cells, 2064, 0, 4, bad, 0x80000400, 1, LATER));
    LEAVES(-9, pci_write_data(&board, cells, 2064, 1, 1, bad, 0x100, 1, LATER));
    RESULT(uint32_t, -9, 0, pci_bus_to_cpu(&board, bad, 0x1234, &got));
    RESULT(uint32_t, -9, 0, pci_cpu_to_bus(&board, bad, 0x1234, &got));
    LEAVES(-9, pci_get_resource(&board, bad, out, sizeof out));
    LEAVES(-9, pci_hook_interrupt(&board, bad, 1, 2));
    LEAVES(-9, pci_unhook_interrupt(&board, bad));
    LEAVES(-9, pci_get_card_used(&board, bad, &status, &address));
    GIVES(0, status | address);
    LEAVES(-9, pci_set_card_used(&board, bad, 1, 0));
}

static void check_driver_configuration(LONG bad) {
    RESULT(UBYTE, -9, 0, read_config_byte(bad, 0x10, &got));
    RESULT(UWORD, -9, 0, read_config_word(bad, 0x10, &got));
    RESULT(ULONG, -9, 0, read_config_longword(bad, 0x10, &got));
    LEAVES(0xFF, fast_read_config_byte(bad, 0x10));
    LEAVES(0xFFFF, fast_read_config_word(bad, 0x10));
    LEAVES(0xFFFFFFFF, fast_read_config_longword(bad, 0x10));
    LEAVES(-9, write_config_byte(bad, 0x11, 1));
    LEAVES(-9, write_config_word(bad, 0x12, 1));
    LEAVES(-9, write_config_longword(bad, 0x10, 0x90000000));
}

/* Memory and I/O at an address of handle 2, which the draft's calls see 1000h higher. */
static void check_driver_data(const struct data_calls *driver, ULONG offset, LONG bad) {
    for (int io = 0; io < 2; io++)
        for (unsigned width = 1; width <= 4; width *= 2) {
            ULONG address = (io ? 0x100 : 0x80000400) + offset;
            RESULT(ULONG, -9, 0, driver->read(io, width, bad, address, &got));
            LEAVES(0xFFFFFFFF >> (32 - 8 * width), driver->fast_read(io, width, bad, address));
            LEAVES(-9, driver->write(io, width, bad, address, 1));
        }
}

static void check_driver_handle(LONG bad) {
    pci_callback *got = callback;
    check_driver_configuration(bad);
    check_driver_data(&later_calls, 0, bad);
    check_driver_data(&draft_calls, 0x1000, bad);
    LEAVES(-9, hook_interrupt(bad, handler, out));
    LEAVES(-9, unhook_interrupt(bad));
    LEAVES(-9, get_resource(bad));
    LEAVES(-9, get_card_used(bad, &got));
    GIVES(1, got == NULL);
    LEAVES(-9, set_card_used(bad, PCI_CARD_IN_USE));
}

/* Handles that are 1 or 2 if they are cut to 8 bits, to 16, or to 31. */
static void test_handles(void) {
    static const uint32_t bad[] = {0x101, 0x102, 0x10001, 0x10002, 0x80000001, 0x80000002};
    use_hooked();
    for (size_t i = 0; i < sizeof bad / sizeof bad[0]; i++) {
        check_bios_handle(bad[i]);
        check_driver_handle((LONG)bad[i]);
    }
    LEAVES(-6, hook_interrupt(2, handler, out));
    GIVES(0, unhook_interrupt(2));
    LEAVES(-9, pci_hook_interrupt(&board, 0x102, 1, 2));
    LEAVES(-9, hook_interrupt(0x102, handler, out));
}

static void check_no_window(uint32_t n) {
    struct pci_window got = {9, 9, 9, 9, 9, 9};
    LEAVES(-4, pci_list_window(&board, n, &got));
    GIVES(0, got.start | got.length | got.handle | got.base);
    GIVES(0, got.io | got.contested);
}

/* The same for indices, places, lines and statuses. */
static void test_numbers(void) {
    static const uint32_t above[] = {0x100, 0x10000, 0x80000000};
    use_hooked();
    for (size_t i = 0; i < 3; i++) {
        for (uint32_t n = 0; n < 4; n++) {
            LEAVES(-4, pci_find_device(&board, 0x0000FFFF, above[i] + n, LATER));
            LEAVES(-4, pci_find_class(&board, 0x07000000, above[i] + n, LATER));
            check_no_window(above[i] + n);
            check_chain(5, above[i] + n, -4);
            LEAVES(-8, pci_set_card_used(&board, 2, above[i] + n, 0));
        }
        check_chain(above[i] + 5, 0, -8);
    }
    LEAVES(-4, find_pci_device(0x0000FFFF, 0x100));
    LEAVES(-4, find_pci_device(0x0000FFFF, 0x101));
    LEAVES(-4, find_pci_classcode(0x07000000, 0x100));
    LEAVES(-4, find_pci_classcode(0x07000000, 0x101));
    check_no_window(3);
}

/* Widths that are 1, 2 or 4 only if they are cut. */
static void test_widths(void) {
    load_fresh();
    for (unsigned width = 0x101; width <= 0x104; width++) {
        RESULT(uint32_t, -8, 0, pci_read_config(&board, width, 1, 0x10, &got));
        FAST(0xFFFFFFFF, 1, pci_fast_read_config(&board, width, 1, 0x10, &fault));
        LEAVES(-8, pci_write_config(&board, width, 1, 0x10, 0x90000000));
        RESULT(uint32_t, -8, 0,
               pci_read_data(&board, cells, 2064, 0, width, 1, 0x80000000, LATER, &got));
        FAST(0xFFFFFFFF, 1,
             pci_fast_read_data(&board, cells, 2064, 0, width, 1, 0x80000000, LATER, &fault));
        LEAVES(-8, pci_write_data(&board, cells, 2064, 0, width, 1, 0x80000000, 1, LATER));
    }
}

/* Every number but 0 is I/O, in each call; a memory address is then no window's. */
static void test_spaces(void) {
    static const int spaces[] = {1, 2, 4, 0x80, 0x100, 0x10000, INT_MIN, -1, -2};
    load_fresh();
    for (size_t i = 0; i < sizeof spaces / sizeof spaces[0]; i++) {
        int io = spaces[i], byte = (int)(0x30 + i);
        ALTERS(0, pci_write_data(&board, cells, 2064, io, 1, 2, 0x105, (uint32_t)byte, LATER));
        RESULT(uint32_t, 0, byte, pci_read_data(&board, cells, 2064, io, 1, 2, 0x105, LATER, &got));
        FAST(byte, 0, pci_fast_read_data(&board, cells, 2064, io, 1, 2, 0x105, LATER, &fault));
        LEAVES(-8, pci_write_data(&board, cells, 2064, io, 4, 2, 0x80000400, 1, LATER));
        RESULT(uint32_t, -8, 0,
               pci_read_data(&board, cells, 2064, io, 4, 2, 0x80000400, LATER, &got));
        FAST(0xFFFFFFFF, 1,
             pci_fast_read_data(&board, cells, 2064, io, 4, 2, 0x80000400, LATER, &fault));
    }
    LEAVES(-8, pci_write_data(&board, cells, 2064, 0, 1, 2, 0x105, 1, LATER));
    RESULT(uint32_t, -8, 0, pci_read_data(&board, cells, 2064, 0, 1, 2, 0x105, LATER, &got));
}

/* Each refusal of a read, and that it leaves nothing of what the variable held; handle 1 and 2 meet
   at 80000000h for the contested one. */
static void test_refused_reads(void) {
    load_fresh();
    pci_use_board(&board, cells, 2064);
    RESULT(uint32_t, -5, 0, pci_read_config(&board, 2, 1, 0x11, &got));
    RESULT(uint32_t, -5, 0, pci_read_config(&board, 4, 1, 0x12, &got));
    RESULT(UWORD, -5, 0, read_config_word(1, 0x11, &got));
    RESULT(ULONG, -5, 0, read_config_longword(1, 0x12, &got));
    RESULT(uint32_t, -7, 0, pci_read_data(&board, cells, 2063, 0, 4, 1, 0x80000000, LATER, &got));
    RESULT(uint32_t, -8, 0, pci_read_data(&board, cells, 2064, 0, 2, 1, 0x80000001, LATER, &got));
    RESULT(uint32_t, -8, 0, pci_read_data(&board, cells, 2064, 0, 1, 1, 0x80000400, LATER, &got));
    RESULT(uint32_t, -2, 0, pci_read_data(&board, cells, 2064, 1, 2, 2, 0x100, LATER, &got));
    RESULT(UBYTE, -8, 0, read_mem_byte(1, 0x80000400, &got));
    RESULT(UWORD, -8, 0, read_mem_word(1, 0x80000001, &got));
    RESULT(ULONG, -8, 0, read_mem_longword(1, 0x80000002, &got));
    RESULT(UBYTE, -8, 0, read_io_byte(2, 0x110, &got));
    RESULT(UWORD, -2, 0, read_io_word(2, 0x100, &got));
    RESULT(ULONG, -2, 0, read_io_longword(2, 0x100, &got));
    GIVES(0, write_config_longword(2, 0x10, 0x80000000));
    RESULT(uint32_t, -8, 0, pci_read_data(&board, cells, 2064, 0, 4, 1, 0x80000000, LATER, &got));
    RESULT(ULONG, -8, 0, read_mem_longword(2, 0x80000000, &got));
}

/* Conversions by the greatest offset, FFFFFFFCh: the address less 4, and 4 more. */
static void test_greatest_offset(void) {
    uint32_t place;
    put_long(image + 544 + 536, 0xFFFFFFFC);
    put_trailer(image, 2);
    load_fresh();
    RESULT(uint32_t, 0, 0xFFFFFFFC, pci_bus_to_cpu(&board, 2, 0, &got));
    RESULT(uint32_t, 0, 0, pci_bus_to_cpu(&board, 2, 4, &got));
    RESULT(uint32_t, 0, 4, pci_cpu_to_bus(&board, 2, 0, &got));
    RESULT(uint32_t, 0, 3, pci_cpu_to_bus(&board, 2, 0xFFFFFFFF, &got));
    put_long(image + 544 + 536, 0x1000);
    put_trailer(image, 2);
    GIVES(0, pci_check_image(image, sizeof image, &place));
}

/* A board of FFh alone: its sum, 21DE00h, counts to the last bit before the broken rule does. */
static void test_great_sum(void) {
    static uint8_t ones[16 * 544 + 12];
    uint32_t place = 9;
    memset(ones, 0xFF, sizeof ones);
    put_trailer(ones, 16);
    GIVES(0x21, ones[sizeof ones - 3]);
    LEAVES(6, pci_check_image(ones, sizeof ones, &place));
    GIVES(0, place);
    ones[sizeof ones - 3] ^= 0x20;
    LEAVES(5, pci_check_image(ones, sizeof ones, &place));
    ones[sizeof ones - 3] ^= 0x30;
    LEAVES(5, pci_load(&board, cells, sizeof cells, ones, sizeof ones, &place));
}

/* The arguments of a special cycle change no answer; a recorder is told of them. */
static void test_special_cycle(void) {
    pci_recorder = &keeper;
    GIVES(-2, pci_special_cycle(0x41, 0x11121314));
    GIVES(0x41, told.reg);
    GIVES(0x11121314, told.a);
    GIVES(-2, special_cycle(0xC2, 0xA1A2A3A4));
    GIVES(0xC2, told.reg);
    GIVES(0xA1A2A3A4, told.a);
    pci_recorder = NULL;
}

void test_passed_on(void) {
    test_handles();
    test_numbers();
    test_widths();
    test_spaces();
    test_refused_reads();
    test_greatest_offset();
    test_great_sum();
    test_special_cycle();
    pci_use_board(NULL, NULL, 0);
}
