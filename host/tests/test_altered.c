/* Boards that a caller altered, read as document 01 says under "What the promises say"; and walks
   over descriptor bytes. */
#include <string.h>
#include "check.h"

/* Where an entry of a record begins, and its bytes. */
#define ENTRY(function, base) (544 * (function) + 512 + 4 * (base))
enum { EXPONENT, ORDER, WIDTHS };

/* Works the window list out anew: a write to the command register, which keeps its bits. */
static void refresh(void) {
    GIVES(0, pci_write_config(&board, 1, 1, 0x04, 0x03));
}

static void window_is(uint32_t n, int io, uint32_t start, uint32_t length, uint32_t handle,
                      uint32_t base) {
    struct pci_window window;
    GIVES(0, pci_list_window(&board, n, &window));
    GIVES(io, window.io);
    GIVES(start, window.start);
    GIVES(length, window.length);
    GIVES(handle, window.handle);
    GIVES(base, window.base);
    GIVES(0, window.contested);
}

static void windows_are(uint32_t count) {
    struct pci_window window;
    for (uint32_t n = 0; n < count; n++)
        GIVES(0, pci_list_window(&board, n, &window));
    GIVES(-4, pci_list_window(&board, count, &window));
}

/* "count above 16 as 16": a count of 17, and of FFFFFFFFh. */
static void test_counts(void) {
    static const uint32_t counts[] = {17, UINT32_MAX};
    uint32_t value, place;
    for (size_t i = 0; i < 2; i++) {
        memset(&board, 0, sizeof board);
        GIVES(0, pci_load(&board, cells, sizeof cells, sixteen, sizeof sixteen, &place));
        board.header[0] = counts[i];
        LEAVES(0, pci_read_config(&board, 4, 16, 0x00, &value));
        GIVES(0x00010F0F, value);
        LEAVES(-9, pci_read_config(&board, 4, 17, 0x00, &value));
        GIVES(0, value);
        LEAVES(16, pci_find_device(&board, 0x00010F0F, 15, LATER));
        LEAVES(-4, pci_find_device(&board, 0x00010F0F, 16, LATER));
        refresh();
        windows_are(16);
    }
}

/* A second function's record, one function: only the functions there are count. */
static void test_one_of_two(void) {
    uint32_t value;
    load_fresh();
    board.header[0] = 1;
    refresh();
    window_is(0, 0, 0x80000000, 1024, 1, 0);
    windows_are(1);
    LEAVES(-9, pci_read_config(&board, 1, 2, 0x00, &value));
}

/* "k outside 2..16 as no window": exponents 0, 1, 2, 16, 17, 255, in the list and in
   the descriptors. */
static void test_exponents(void) {
    static const uint8_t exponents[] = {0, 1, 2, 16, 17, 255};
    uint8_t out[60];
    load_fresh();
    for (uint32_t base = 0; base < 6; base++) {
        board.records[ENTRY(0, base) + EXPONENT] = exponents[base];
        memcpy(&board.registers[0x10 + 4 * base],
               (uint8_t[4]){0, 0, (uint8_t)(0x10 * (base + 1)), 0}, 4);
    }
    refresh();
    window_is(0, 0, 0x00300000, 4, 1, 2);
    window_is(1, 0, 0x00400000, 65536, 1, 3);
    window_is(2, 0, 0x80000400, 1024, 2, 0);
    windows_are(4);
    memset(out, 0xA5, sizeof out);
    LEAVES(-7, pci_get_resource(&board, 1, out, 39));
    LEAVES(0, pci_get_resource(&board, 1, out, sizeof out));
    GIVES(4, out[11]);
    GIVES(1, out[29]);
    GIVES(0xA5, out[40]);
}

/* The windows of both memory bases have k 0 in the records, and the kept list stands: data calls
   and the listing go by the list, descriptors and the image by the records. */
static void check_list_stands(void) {
    uint32_t value;
    int fault;
    window_is(0, 0, 0x80000000, 1024, 1, 0);
    window_is(1, 0, 0x80000400, 1024, 2, 0);
    window_is(2, 1, 0x00000100, 16, 2, 1);
    windows_are(3);
    ALTERS(0, pci_write_data(&board, cells, 2064, 0, 4, 1, 0x800003FC, 0x11223344, LATER));
    LEAVES(0, pci_read_data(&board, cells, 2064, 0, 2, 1, 0x800003FC, LATER, &value));
    GIVES(0x3344, value);
    LEAVES(0x44, pci_fast_read_data(&board, cells, 2064, 0, 1, 1, 0x800003FC, LATER, &fault));
    GIVES(0, fault);
    LEAVES(-8, pci_read_data(&board, cells, 2064, 0, 4, 1, 0x80000400, LATER, &value));
    LEAVES(-7, pci_read_data(&board, cells, 2063, 0, 4, 1, 0x80000000, LATER, &value));
}

static void check_records_count(void) {
    uint8_t out[1100];
    uint32_t place;
    memset(out, 0xA5, sizeof out);
    LEAVES(-8, pci_get_resource(&board, 1, out, sizeof out));
    LEAVES(-7, pci_get_resource(&board, 2, out, 19));
    LEAVES(0, pci_get_resource(&board, 2, out, 40));
    GIVES(0, memcmp(out, (uint8_t[12]){0, 20, 0xC1, 0x02, 0, 0, 1, 0, 0, 0, 0, 16}, 12));
    GIVES(0xA5, out[20]);
    LEAVES(0, pci_write_image(&board, out, sizeof out));
    GIVES(0, out[ENTRY(0, 0)] + out[ENTRY(1, 0)]);
    GIVES(image[1099] - 20, out[1099]);
    GIVES(6, pci_check_image(out, sizeof out, &place));
    GIVES(0, place);
}

/* "k outside 2..16 as no window" of a record alone: the list follows when it is worked out afresh,
   by a configuration write or a reset. The kept total stays. */
static void test_exponents_of_records_alone(void) {
    for (int by_reset = 0; by_reset < 2; by_reset++) {
        load_fresh();
        board.records[ENTRY(0, 0) + EXPONENT] = 0;
        board.records[ENTRY(1, 0) + EXPONENT] = 0;
        check_list_stands();
        check_records_count();
        LEAVES(-7, pci_reset(&board, cells, 2063));
        ALTERS(0, by_reset ? pci_reset(&board, cells, 2064)
                           : pci_write_config(&board, 1, 1, 0x04, 0x03));
        window_is(0, 1, 0x00000100, 16, 2, 1);
        windows_are(1);
        GIVES(2064, board.cell_offsets[96]);
    }
}

/* "another byte order as 0, widths by bits 0 to 2": order 7, widths 15. */
static void test_orders_and_widths(void) {
    uint8_t out[40];
    uint32_t value;
    load_fresh();
    board.records[ENTRY(1, 0) + ORDER] = 7;
    board.records[ENTRY(1, 0) + WIDTHS] = 15;
    memcpy(&cells[1024], (uint8_t[4]){0x11, 0x22, 0x33, 0x44}, 4);
    LEAVES(0, pci_read_data(&board, cells, sizeof cells, 0, 1, 2, 0x80000401, LATER, &value));
    GIVES(0x22, value);
    LEAVES(0, pci_read_data(&board, cells, sizeof cells, 0, 4, 2, 0x80000400, LATER, &value));
    GIVES(0x11223344, value);
    LEAVES(0, pci_get_resource(&board, 2, out, sizeof out));
    GIVES(0x07, out[2]);
    GIVES(0x00, out[3]);
    board.records[ENTRY(1, 0) + WIDTHS] = 8;
    LEAVES(-2, pci_read_data(&board, cells, sizeof cells, 0, 1, 2, 0x80000401, LATER, &value));
}

/* "a cell past the buffer answers -7", after -2; the total is the kept one as it stands. */
static void test_cells_past_the_buffer(void) {
    uint32_t value;
    load_fresh();
    board.cell_offsets[6] = sizeof cells - 2;
    LEAVES(0, pci_read_data(&board, cells, sizeof cells, 0, 2, 2, 0x80000402, LATER, &value));
    LEAVES(-7, pci_read_data(&board, cells, sizeof cells, 0, 4, 2, 0x80000400, LATER, &value));
    board.records[ENTRY(1, 0) + WIDTHS] = 1;
    LEAVES(-2, pci_read_data(&board, cells, sizeof cells, 0, 4, 2, 0x80000400, LATER, &value));
}

/* An offset that is no multiple of 4, read as it stands: the bus address is what must be a multiple
   of the width. Of a handle past the count no offset is asked. */
static void test_odd_offset(void) {
    uint32_t value;
    load_fresh();
    put_long(&board.records[544 + 536], 0xFFFFFFFD);
    ALTERS(0, pci_write_data(&board, cells, 2064, 0, 4, 2, 0x800003FD, 0x11223344, DRAFT));
    LEAVES(0, pci_read_data(&board, cells, 2064, 0, 4, 2, 0x80000400, LATER, &value));
    GIVES(0x11223344, value);
    LEAVES(-8, pci_read_data(&board, cells, 2064, 0, 4, 2, 0x80000400, DRAFT, &value));
    LEAVES(0, pci_read_data(&board, cells, 2064, 0, 1, 2, 0x80000400, DRAFT, &value));
    GIVES(0x11, value);
    board.header[0] = 1;
    LEAVES(-9, pci_read_data(&board, cells, 2064, 0, 4, 2, 0x800003FD, DRAFT, &value));
    LEAVES(-2, pci_read_data(&board, cells, 2064, 0, 4, 2, 0x800003FD, 3, &value));
}

/* "count above 16 as 16" for the offset of the last function, and of the one past it. */
static void test_last_offset(void) {
    uint32_t place, value;
    GIVES(0, pci_load(&board, cells, sizeof cells, sixteen, sizeof sixteen, &place));
    board.header[0] = UINT32_MAX;
    refresh();
    put_long(&board.records[15 * 544 + 536], 0x10000000);
    GIVES(0, pci_write_config(&board, 4, 16, 0x10, 0xA0000000));
    LEAVES(0, pci_read_data(&board, cells, sizeof cells, 0, 4, 16, 0xB0000000, DRAFT, &value));
    LEAVES(-8, pci_read_data(&board, cells, sizeof cells, 0, 4, 16, 0xA0000000, DRAFT, &value));
    LEAVES(-9, pci_read_data(&board, cells, sizeof cells, 0, 4, 17, 0xB0000000, DRAFT, &value));
    LEAVES(16, pci_find_device(&board, 0x0F0F0001, 15, DRAFT));
    LEAVES(-4, pci_find_device(&board, 0x0F0F0001, 16, DRAFT));
}

/* A hook with the pin gone: -8 before -6, though the function is hooked. */
static void test_pin_gone(void) {
    load_fresh();
    GIVES(0, pci_hook_interrupt(&board, 2, 1, 2));
    LEAVES(-6, pci_hook_interrupt(&board, 2, 1, 2));
    board.records[544 + 0x3D] = 0;
    LEAVES(-8, pci_hook_interrupt(&board, 2, 1, 2));
}

/* How many steps a walk makes over bytes that are zero but for the first descriptor's
   next field and flags. */
static int steps(size_t length, uint8_t next_high, uint8_t next, uint8_t flags) {
    uint8_t bytes[60] = {next_high, next, flags};
    struct pci_descriptor descriptor;
    size_t at = 0;
    int made = 0;
    while (made < 9 && pci_descriptor_step(bytes, length, at, &descriptor, &at) == 1)
        made++;
    return made;
}

/* "it stops where 20 bytes do not remain, and after a descriptor with the last mark or with
   next below 20". */
static void test_walks(void) {
    GIVES(2, steps(60, 0, 20, 0));
    GIVES(2, steps(60, 0, 24, 0));
    GIVES(1, steps(60, 0, 41, 0));
    GIVES(1, steps(60, 0, 19, 0));
    GIVES(1, steps(60, 0, 20, 0x80));
    GIVES(1, steps(60, 0xFF, 0xFF, 0));
    GIVES(1, steps(39, 0, 20, 0));
    GIVES(0, steps(19, 0, 20, 0));
}

void test_altered(void) {
    test_counts();
    test_one_of_two();
    test_exponents();
    test_exponents_of_records_alone();
    test_orders_and_widths();
    test_cells_past_the_buffer();
    test_odd_offset();
    test_last_offset();
    test_pin_gone();
    test_walks();
}
