/* Status bits, registers 06h and 07h, by pci_bios.h and by the names of the BIOS text in
   pci_driver.h: request E2 of document 02, and what drivers do with status. */
#include <string.h>
#include "check.h"
#include "pci_driver.h"

/* What the longword at 04h is after a load: of handle 1 the request's, under the masks F9300503h;
   of handle 2 this, under C4500003h. */
#define FIRST 0xF9B00403
#define SECOND 0xA5700003

static uint8_t loaded[sizeof image];

/* The bytes from 05h on of a record, and their masks. */
static void put_status(uint8_t *record, const uint8_t values[3], const uint8_t masks[3]) {
    memcpy(record + 0x05, values, 3);
    memcpy(record + 256 + 0x05, masks, 3);
}

static void load(void) {
    uint32_t place;
    put_trailer(loaded, 2);
    memset(cells, 0xAA, sizeof cells);
    GIVES(0, pci_load(&board, cells, sizeof cells, loaded, sizeof loaded, &place));
    pci_use_board(&board, cells, sizeof cells);
}

/* B1 with status at handle 1, as the request has it, and at handle 2. */
static void load_two(void) {
    memcpy(loaded, image, sizeof loaded);
    put_status(loaded, (uint8_t[]){0x04, 0xB0, 0xF9}, (uint8_t[]){0x05, 0x30, 0xF9});
    put_status(loaded + 544, (uint8_t[]){0x00, 0x70, 0xA5}, (uint8_t[]){0x00, 0x50, 0xC4});
    load();
}

/* The longword at 04h, command and status, which the read leaves. */
static uint32_t at_04(uint32_t handle) {
    uint32_t value;
    LEAVES(0, pci_read_config(&board, 4, handle, 0x04, &value));
    return value;
}

/* A write by pci_bios.h after which the longword at 04h of its handle is `after`, and all else,
   the other handle's status too, as it was. */
static void check_write(unsigned width, uint32_t handle, uint8_t reg, uint32_t value,
                        uint32_t after) {
    static struct pci_board wanted;
    memcpy(&wanted, &board, sizeof board);
    for (int i = 0; i < 4; i++)
        wanted.registers[256 * (handle - 1) + 4 + i] = (uint8_t)(after >> (8 * i));
    GIVES(0, pci_write_config(&board, width, handle, reg, value));
    GIVES(after, at_04(handle));
    GIVES(0, memcmp(&wanted, &board, sizeof board));
}

/* ---- The request's numbers ---- */

/* B1's image with six bytes more: the sum is 1163h. */
static void load_request(void) {
    load_two();
    put_status(loaded + 544, (uint8_t[3]){0}, (uint8_t[3]){0});
    memset(loaded + 544 + 536, 0, 8);
    load();
    GIVES(0x11, loaded[1098]);
    GIVES(0x63, loaded[1099]);
    GIVES(FIRST, at_04(1));
}

static void test_request(void) {
    load_request();
    check_write(2, 1, 0x06, 0x2010, 0xD9A00403);
    LEAVES(0, pci_write_config(&board, 2, 1, 0x06, 0));
    check_write(1, 1, 0x05, 0xFF, 0xD9A00503);
    check_write(4, 1, 0x04, 0xFFFF0003, 0x00800003);
    ALTERS(0, pci_reset(&board, cells, sizeof cells));
    GIVES(FIRST, at_04(1));
}

static void test_request_by_driver(void) {
    load_request();
    ALTERS(0, write_config_word(1, 0x06, 0x2010));
    LEAVES(0xD9A00403, fast_read_config_longword(1, 0x04));
    LEAVES(0, write_config_word(1, 0x06, 0));
    ALTERS(0, write_config_byte(1, 0x05, 0xFF));
    LEAVES(0xD9A00503, fast_read_config_longword(1, 0x04));
    ALTERS(0, write_config_longword(1, 0x04, 0xFFFF0003));
    LEAVES(0x00800003, fast_read_config_longword(1, 0x04));
    ALTERS(0, pci_reset(&board, cells, sizeof cells));
    LEAVES(FIRST, fast_read_config_longword(1, 0x04));
}

/* ---- What drivers do ---- */

/* Reads of all widths, twice, leave status. */
static void test_reads(void) {
    UBYTE byte;
    UWORD word;
    ULONG longword;
    load_two();
    for (int i = 0; i < 2; i++) {
        LEAVES(0, read_config_byte(1, 0x06, &byte));
        GIVES(0xB0, byte);
        LEAVES(0, read_config_byte(1, 0x07, &byte));
        GIVES(0xF9, byte);
        LEAVES(0, read_config_word(1, 0x06, &word));
        GIVES(0xF9B0, word);
        LEAVES(0, read_config_longword(1, 0x04, &longword));
        GIVES(FIRST, longword);
        LEAVES(0xB0, fast_read_config_byte(1, 0x06));
        LEAVES(0xF9, fast_read_config_byte(1, 0x07));
        LEAVES(0xF9B0, fast_read_config_word(1, 0x06));
        LEAVES(FIRST, fast_read_config_longword(1, 0x04));
    }
}

/* Errors are cleared by writing back the status word that was read: all bits that can be cleared
   are then 0, and a second time nothing is left to clear. */
static void test_clear_all(void) {
    UWORD status;
    load_two();
    LEAVES(0, read_config_word(1, 0x06, &status));
    ALTERS(0, write_config_word(1, 0x06, status));
    GIVES(0x00800403, at_04(1));
    LEAVES(0, read_config_word(1, 0x06, &status));
    GIVES(0x0080, status);
    LEAVES(0, write_config_word(1, 0x06, status));
    LEAVES(0, write_config_word(1, 0x06, 0xFFFF));
    GIVES(SECOND, at_04(2));
}

/* The same by two bytes. */
static void test_clear_bytes(void) {
    UBYTE low, high;
    load_two();
    LEAVES(0, read_config_byte(2, 0x06, &low));
    LEAVES(0, read_config_byte(2, 0x07, &high));
    ALTERS(0, write_config_byte(2, 0x06, low));
    GIVES(0xA5200003, at_04(2));
    ALTERS(0, write_config_byte(2, 0x07, high));
    GIVES(0x21200003, at_04(2));
    LEAVES(0, write_config_byte(2, 0x06, 0xFF));
    LEAVES(0, write_config_byte(2, 0x07, 0xFF));
    GIVES(FIRST, at_04(1));
}

/* One bit is cleared by writing it alone, by the word and by its byte: of those that are set and
   masked, and no other. */
static void test_clear_one(void) {
    for (int bit = 0; bit < 16; bit++) {
        uint32_t one = UINT32_C(1) << bit;
        uint8_t reg = bit < 8 ? 0x06 : 0x07;
        load_two();
        check_write(2, 1, 0x06, one, FIRST & ~((one & 0xF930) << 16));
        check_write(2, 1, 0x06, 0, FIRST & ~((one & 0xF930) << 16));
        check_write(1, 2, reg, one >> (bit & 8), SECOND & ~((one & 0xC450) << 16));
        check_write(1, 2, reg, 0, SECOND & ~((one & 0xC450) << 16));
    }
}

/* A driver that sets a command bit (8 of 04h, 05h bit 0) by reading, changing and writing the
   longword clears status by accident, as it writes back what it read there. By the word at 04h, or
   with zeros in the upper half, it does not. */
static void test_command(void) {
    ULONG longword;
    UWORD word;
    load_two();
    LEAVES(0, read_config_longword(1, 0x04, &longword));
    ALTERS(0, write_config_longword(1, 0x04, longword | 0x0100));
    GIVES(0x00800503, at_04(1));
    load_two();
    LEAVES(0, read_config_word(1, 0x04, &word));
    ALTERS(0, write_config_word(1, 0x04, word | 0x0100));
    GIVES(0xF9B00503, at_04(1));
    load_two();
    LEAVES(0, read_config_longword(1, 0x04, &longword));
    ALTERS(0, write_config_longword(1, 0x04, (longword | 0x0100) & 0xFFFF));
    GIVES(0xF9B00503, at_04(1));
}

/* One longword closes a window and clears status, another opens it and clears the rest. */
static void test_windows(void) {
    struct pci_window window;
    load_two();
    ALTERS(0, write_config_longword(1, 0x04, 0x20100000));
    GIVES(0xD9A00000, at_04(1));
    LEAVES(0, pci_list_window(&board, 0, &window));
    GIVES(2, window.handle);
    ALTERS(0, write_config_longword(1, 0x04, 0xFFFFFFFF));
    GIVES(0x00800503, at_04(1));
    LEAVES(0, pci_list_window(&board, 0, &window));
    GIVES(1, window.handle);
}

/* ---- What is no status, and what is refused ---- */

/* 05h takes what is written where its mask has 1, and so does 08h, on an altered board. */
static void test_beside(void) {
    load_two();
    check_write(1, 1, 0x05, 0x01, 0xF9B00103);
    check_write(1, 1, 0x05, 0xFF, 0xF9B00503);
    check_write(1, 1, 0x05, 0x05, 0xF9B00503);
    check_write(1, 1, 0x05, 0x00, 0xF9B00003);
    LEAVES(0, pci_write_config(&board, 4, 1, 0x08, 0xFFFFFFFF));
    board.records[256 + 0x08] = 0x3C;
    board.registers[0x08] = 0x5A;
    ALTERS(0, pci_write_config(&board, 1, 1, 0x08, 0xF0));
    GIVES(0x72, board.registers[0x08]);
    LEAVES(0, pci_write_config(&board, 4, 1, 0x08, 0xFFFFFF72));
    GIVES(0xF9B00003, at_04(1));
}

/* Masks and status that a caller altered are read as they stand. */
static void test_masks_altered(void) {
    load_two();
    board.records[256 + 0x06] = 0xFF;
    board.records[256 + 0x07] = 0x00;
    board.registers[0x06] = 0x6B;
    check_write(2, 1, 0x06, 0xFF0A, 0xF9610403);
    check_write(4, 1, 0x04, 0xFFFF0403, 0xF9000403);
    check_write(2, 1, 0x06, 0xFFFF, 0xF9000403);
}

static void test_refused(void) {
    static const uint32_t handles[] = {0, 3, 17, 0x101, 0x10001, 0x80000001, 0xFFFFFFFF};
    static const unsigned widths[] = {0, 3, 5, 8, 0x101, 0x102};
    load_two();
    for (size_t i = 0; i < sizeof handles / sizeof handles[0]; i++) {
        LEAVES(-9, pci_write_config(&board, 1, handles[i], 0x07, 0xFF));
        LEAVES(-9, pci_write_config(&board, 2, handles[i], 0x06, 0xFFFF));
        LEAVES(-9, pci_write_config(&board, 4, handles[i], 0x06, 0xFFFFFFFF));
        LEAVES(PCI_BAD_HANDLE, write_config_longword((LONG)handles[i], 0x04, 0xFFFFFFFF));
    }
    for (size_t i = 0; i < sizeof widths / sizeof widths[0]; i++)
        LEAVES(-8, pci_write_config(&board, widths[i], 1, 0x06, 0xFFFFFFFF));
    LEAVES(-5, pci_write_config(&board, 2, 1, 0x05, 0xFFFF));
    LEAVES(-5, pci_write_config(&board, 4, 1, 0x06, 0xFFFFFFFF));
    LEAVES(PCI_BAD_REGISTER_NUMBER, write_config_word(1, 0x07, 0xFFFF));
    LEAVES(PCI_BAD_REGISTER_NUMBER, write_config_longword(1, 0x05, 0xFFFFFFFF));
    LEAVES(PCI_BAD_REGISTER_NUMBER, write_config_longword(1, 0x07, 0xFFFFFFFF));
}

/* ---- Reset, load and the image writer ---- */

/* Bits that were cleared stay so through what is refused, are loaded in the written image, and come
   back by a reset and by a load. */
static void test_back(void) {
    static uint8_t out[sizeof loaded];
    uint32_t place;
    load_two();
    for (int by_load = 0; by_load < 2; by_load++) {
        check_write(2, 1, 0x06, 0xFFFF, 0x00800403);
        check_write(2, 2, 0x06, 0xFFFF, 0x21200003);
        LEAVES(-7, pci_reset(&board, cells, 2063));
        LEAVES(1, pci_load(&board, cells, sizeof cells, loaded, 11, &place));
        LEAVES(0, pci_write_image(&board, out, sizeof out));
        GIVES(0, memcmp(loaded, out, sizeof out));
        if (by_load)
            load();
        else
            ALTERS(0, pci_reset(&board, cells, sizeof cells));
        GIVES(FIRST, at_04(1));
        GIVES(SECOND, at_04(2));
    }
}

void test_status(void) {
    test_request();
    test_request_by_driver();
    test_reads();
    test_clear_all();
    test_clear_bytes();
    test_clear_one();
    test_command();
    test_windows();
    test_beside();
    test_masks_altered();
    test_refused();
    test_back();
}
