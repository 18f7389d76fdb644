/* Every call of pci_bios.h, accepted and refused, with what document 01 says of B1. */
#include <string.h>
#include "check.h"

static uint8_t out[1200];
static uint32_t value, place;
static int fault;

static int bytes_are(const uint8_t *bytes, size_t length, uint8_t byte) {
    for (size_t i = 0; i < length; i++)
        if (bytes[i] != byte)
            return 0;
    return 1;
}

/* Header type 1 is no function's; the class is free, so its byte keeps the sum. */
static void test_check_image(void) {
    uint8_t bad[sizeof image];
    memcpy(bad, image, sizeof bad);
    bad[544 + 0x0E]++;
    bad[544 + 0x0A]--;
    place = 99;
    LEAVES(0, pci_check_image(image, sizeof image, &place));
    GIVES(0, place);
    LEAVES(6, pci_check_image(bad, sizeof bad, &place));
    GIVES(1, place);
    LEAVES(1, pci_check_image(image, 11, &place));
    GIVES(0, place);
    place = 99;
    LEAVES(1, pci_check_image(NULL, 0, &place));
    GIVES(0, place);
    LEAVES(6, pci_load(&board, cells, sizeof cells, bad, sizeof bad, &place));
    GIVES(1, place);
}

static void test_load(void) {
    memset(&board, 0, sizeof board);
    memset(cells, 0xAA, sizeof cells);
    place = 99;
    LEAVES(8, pci_load(&board, cells, 2063, image, sizeof image, &place));
    GIVES(0, place);
    LEAVES(8, pci_load(&board, NULL, 0, image, sizeof image, &place));
    LEAVES(1, pci_load(&board, cells, sizeof cells, NULL, 0, &place));
    LEAVES(3, pci_write_image(&board, out, sizeof out));
    LEAVES(1, pci_write_image(&board, NULL, 0));
    LEAVES(0, pci_reset(&board, NULL, 0));
    place = 99;
    ALTERS(0, pci_load(&board, cells, 2064, image, sizeof image, &place));
    GIVES(0, place);
    GIVES(1, bytes_are(cells, 2064, 0) && bytes_are(cells + 2064, sizeof cells - 2064, 0xAA));
}

static void test_reset_and_write(void) {
    struct pci_board fresh;
    load_fresh();
    memcpy(&fresh, &board, sizeof fresh);
    LEAVES(0, pci_reset(&board, cells, sizeof cells));
    ALTERS(0, pci_write_config(&board, 4, 1, 0x10, 0xFFFFFFFF));
    ALTERS(0, pci_hook_interrupt(&board, 1, 5, 6));
    ALTERS(0, pci_set_card_used(&board, 1, 1, 0));
    LEAVES(-7, pci_reset(&board, cells, 2063));
    LEAVES(-7, pci_reset(&board, NULL, 0));
    memset(out, 0xAA, sizeof out);
    LEAVES(1, pci_write_image(&board, out, sizeof image - 1));
    LEAVES(1, pci_write_image(&board, NULL, 0));
    GIVES(1, bytes_are(out, sizeof out, 0xAA));
    LEAVES(0, pci_write_image(&board, out, sizeof out));
    GIVES(0, memcmp(out, image, sizeof image));
    GIVES(1, bytes_are(out + sizeof image, sizeof out - sizeof image, 0xAA));
    ALTERS(0, pci_reset(&board, cells, 2064));
    GIVES(0, memcmp(&fresh, &board, sizeof fresh));
}

static void check_window(uint32_t n, struct pci_window wanted, int32_t number) {
    struct pci_window got = {9, 9, 9, 9, 9, 9};
    LEAVES(number, pci_list_window(&board, n, &got));
    GIVES(wanted.io, got.io);
    GIVES(wanted.start, got.start);
    GIVES(wanted.length, got.length);
    GIVES(wanted.handle, got.handle);
    GIVES(wanted.base, got.base);
    GIVES(wanted.contested, got.contested);
}

static void test_windows(void) {
    load_fresh();
    check_window(0, (struct pci_window){0, 0x80000000, 0x400, 1, 0, 0}, 0);
    check_window(2, (struct pci_window){1, 0x00000100, 0x10, 2, 1, 0}, 0);
    check_window(3, (struct pci_window){0, 0, 0, 0, 0, 0}, -4);
    ALTERS(0, pci_write_config(&board, 4, 2, 0x10, 0x80000000));
    check_window(1, (struct pci_window){0, 0x80000000, 0x400, 2, 0, 1}, 0);
}

static void test_searches(void) {
    load_fresh();
    LEAVES(2, pci_find_device(&board, 0x00010F0F, 1, LATER));
    LEAVES(-4, pci_find_device(&board, 0x00010F0F, 2, LATER));
    LEAVES(-4, pci_find_device(&board, 0x00010F0F, 65536, LATER));
    LEAVES(1, pci_find_device(&board, 0x0000FFFF, 0, LATER));
    LEAVES(2, pci_find_class(&board, 0x01118055, 1, LATER));
    LEAVES(-4, pci_find_class(&board, 0x00118055, 0, LATER));
}

static void test_config(void) {
    load_fresh();
    LEAVES(0, pci_read_config(&board, 1, 2, 0x11, &value));
    GIVES(0x04, value);
    LEAVES(0, pci_read_config(&board, 2, 2, 0x12, &value));
    GIVES(0x8000, value);
    LEAVES(0, pci_read_config(&board, 4, 2, 0x14, &value));
    GIVES(0x101, value);
    LEAVES(-9, pci_read_config(&board, 4, 3, 0x10, &value));
    GIVES(0, value);
    value = 9;
    LEAVES(-5, pci_read_config(&board, 4, 1, 0x12, &value));
    GIVES(0, value);
    LEAVES(0x80000400, pci_fast_read_config(&board, 4, 2, 0x10, &fault));
    GIVES(0, fault);
    LEAVES(0xFFFF, pci_fast_read_config(&board, 2, 2, 0x11, &fault));
    GIVES(1, fault);
    ALTERS(0, pci_write_config(&board, 4, 1, 0x10, 0xFFFFFFFF));
    LEAVES(0xFFFFFC00, pci_fast_read_config(&board, 4, 1, 0x10, &fault));
    GIVES(0, fault);
    ALTERS(0, pci_write_config(&board, 1, 2, 0x11, 0x12));
    LEAVES(0x80001000, pci_fast_read_config(&board, 4, 2, 0x10, &fault));
    LEAVES(0, pci_write_config(&board, 2, 1, 0x00, 0xFFFF));
    LEAVES(-9, pci_write_config(&board, 4, 0, 0x10, 1));
    LEAVES(-5, pci_write_config(&board, 2, 1, 0x11, 1));
    LEAVES(-8, pci_write_config(&board, 3, 1, 0x10, 1));
}

/* In order 1 the longword 11223344h has the word 3344h and the byte 44h at its address (P13). */
static void test_data(void) {
    load_fresh();
    ALTERS(0, pci_write_data(&board, cells, 2064, 0, 4, 2, 0x80000400, 0x11223344, LATER));
    GIVES(0x11, cells[1024]);
    LEAVES(0, pci_read_data(&board, cells, 2064, 0, 2, 2, 0x80000400, LATER, &value));
    GIVES(0x3344, value);
    LEAVES(0x44, pci_fast_read_data(&board, cells, 2064, 0, 1, 2, 0x80000400, LATER, &fault));
    GIVES(0, fault);
    ALTERS(0, pci_write_data(&board, cells, 2064, 1, 1, 2, 0x10F, 0x155, LATER));
    GIVES(0x55, cells[2063]);
    LEAVES(0, pci_read_data(&board, cells, 2064, 7, 1, 2, 0x10F, LATER, &value));
    GIVES(0x55, value);
    LEAVES(-8, pci_write_data(&board, cells, 2064, 0, 4, 1, 0x80000400, 1, LATER));
    LEAVES(-2, pci_write_data(&board, cells, 2064, 1, 2, 2, 0x100, 1, LATER));
    LEAVES(-7, pci_write_data(&board, cells, 2063, 0, 4, 1, 0x80000000, 1, LATER));
    LEAVES(-7, pci_write_data(&board, NULL, 0, 0, 4, 1, 0x80000000, 1, LATER));
    LEAVES(-7, pci_read_data(&board, NULL, 0, 0, 4, 1, 0x80000000, LATER, &value));
    GIVES(0, value);
    LEAVES(0xFFFF, pci_fast_read_data(&board, NULL, 0, 0, 2, 1, 0x80000000, LATER, &fault));
    GIVES(1, fault);
    value = 9;
    LEAVES(-9, pci_read_data(&board, cells, 2064, 0, 4, 3, 0x80000000, LATER, &value));
    GIVES(0, value);
}

static void test_conversions(void) {
    load_fresh();
    LEAVES(0, pci_bus_to_cpu(&board, 2, 0xFFFFF000, &value));
    GIVES(0, value);
    LEAVES(0, pci_cpu_to_bus(&board, 2, 0x1234, &value));
    GIVES(0x234, value);
    LEAVES(-9, pci_bus_to_cpu(&board, 3, 0x1234, &value));
    GIVES(0, value);
    value = 9;
    LEAVES(-9, pci_cpu_to_bus(&board, 0, 0x1234, &value));
    GIVES(0, value);
}

static void check_step(size_t length, size_t at, struct pci_descriptor wanted, int32_t number,
                       size_t end) {
    struct pci_descriptor got = {9, 9, 9, 9, 9, 9};
    size_t following = 99;
    GIVES(number, pci_descriptor_step(length == 0 ? NULL : out, length, at, &got, &following));
    GIVES((int64_t)end, following);
    GIVES(0, memcmp(&wanted, &got, sizeof got));
}

static void test_descriptors(void) {
    const struct pci_descriptor none = {0, 0, 0, 0, 0, 0};
    load_fresh();
    memset(out, 0xAA, sizeof out);
    LEAVES(-9, pci_get_resource(&board, 3, out, sizeof out));
    LEAVES(-7, pci_get_resource(&board, 2, out, 39));
    LEAVES(-7, pci_get_resource(&board, 2, NULL, 0));
    GIVES(1, bytes_are(out, sizeof out, 0xAA));
    LEAVES(0, pci_get_resource(&board, 2, out, sizeof out));
    GIVES(1, bytes_are(out + 40, sizeof out - 40, 0xAA));
    GIVES(20, out[1]);
    check_step(40, 0, (struct pci_descriptor){20, 0x0701, 0x80000400, 0x400, 0x1000, 0x2000}, 1,
               20);
    check_step(60, 20, (struct pci_descriptor){20, 0xC102, 0x100, 0x10, 0x1000, 0x2000}, 1, 60);
    check_step(40, 21, none, 0, 21);
    check_step(0, 0, none, 0, 0);
}

static void check_chain(uint32_t line, uint32_t index, int32_t number, uint32_t handle,
                        uint32_t handler, uint32_t parameter) {
    uint32_t got[3] = {9, 9, 9};
    LEAVES(number, pci_list_chain(&board, line, index, &got[0], &got[1], &got[2]));
    GIVES(handle, got[0]);
    GIVES(handler, got[1]);
    GIVES(parameter, got[2]);
}

static void test_chains(void) {
    load_fresh();
    ALTERS(0, pci_hook_interrupt(&board, 2, 0x21, 0x22));
    ALTERS(0, pci_hook_interrupt(&board, 1, 0x11, 0x12));
    LEAVES(-6, pci_hook_interrupt(&board, 2, 0x31, 0x32));
    LEAVES(-9, pci_hook_interrupt(&board, 3, 0x31, 0x32));
    check_chain(5, 0, 0, 2, 0x21, 0x22);
    check_chain(5, 1, 0, 1, 0x11, 0x12);
    check_chain(5, 2, -4, 0, 0, 0);
    check_chain(16, 0, -8, 0, 0, 0);
    ALTERS(0, pci_unhook_interrupt(&board, 2));
    LEAVES(-8, pci_unhook_interrupt(&board, 2));
    LEAVES(-9, pci_unhook_interrupt(&board, 0));
    check_chain(5, 0, 0, 1, 0x11, 0x12);
}

static void check_used(uint32_t handle, int32_t number, uint32_t status, uint32_t callback) {
    uint32_t got[2] = {9, 9};
    LEAVES(number, pci_get_card_used(&board, handle, &got[0], &got[1]));
    GIVES(status, got[0]);
    GIVES(callback, got[1]);
}

static void test_used(void) {
    load_fresh();
    ALTERS(0, pci_set_card_used(&board, 2, 2, 0x1234));
    LEAVES(-8, pci_set_card_used(&board, 2, 4, 0));
    LEAVES(-9, pci_set_card_used(&board, 3, 1, 0));
    check_used(2, 0, 2, 0x1234);
    check_used(1, 0, 0, 0);
    check_used(3, -9, 0, 0);
    ALTERS(0, pci_set_card_used(&board, 2, 3, 0x1234));
    check_used(2, 0, 3, 0);
    LEAVES(-2, pci_special_cycle(0, 0));
    LEAVES(-2, pci_get_routing());
    LEAVES(-2, pci_set_interrupt());
}

void test_bios(void) {
    test_check_image();
    test_load();
    test_reset_and_write();
    test_windows();
    test_searches();
    test_config();
    test_data();
    test_conversions();
    test_descriptors();
    test_chains();
    test_used();
}
