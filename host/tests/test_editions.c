/* The editions of searches and data calls, by pci_bios.h: draft 1.9 as request E1 and document 000
   have it, on B1; and every edition number with every refusal. */
#include <string.h>
#include "check.h"

/* The two that there are, those that are one of them only if they are cut, and others. */
static const uint32_t editions[] = {0,          1,          2,         3,          0x101,
                                    0x102,      0x10001,    0x10002,   0x80000000, 0x80000001,
                                    0x80000002, 0xFFFFFFFE, 0xFFFFFFFF};

#define COUNT(array) (sizeof array / sizeof array[0])

static uint32_t value;
static int fault;

static int is_known(uint32_t edition) {
    return edition == DRAFT || edition == LATER;
}

/* Loads a copy of the image with other offsets, and B1's own contents beside. */
static void load_offsets(uint32_t first, uint32_t second) {
    uint8_t moved[sizeof image];
    uint32_t place;
    memcpy(moved, image, sizeof moved);
    put_long(moved + 536, first);
    put_long(moved + 544 + 536, second);
    put_trailer(moved, 2);
    memset(&board, 0, sizeof board);
    memset(cells, 0xAA, sizeof cells);
    GIVES(0, pci_load(&board, cells, sizeof cells, moved, sizeof moved, &place));
}

/* ---- Searches ---- */

/* What is searched for, and the number of each edition. */
struct search {
    uint32_t sought, index;
    int32_t draft, later;
};

static const struct search devices[] = {
    {0x0F0F0001, 0, 1, -4},           {0x0F0F0001, 1, 2, -4},  {0x0F0F0001, 2, -4, -4},
    {0x0F0F0001, 0x10000, -4, -4},    {0x00010F0F, 0, -4, 1},  {0x00010F0F, 1, -4, 2},
    {0x00010F0F, 2, -4, -4},          {0x0000FFFF, 0, -4, 1},  {0x0001FFFF, 1, -4, 2},
    {0x0F0FFFFF, 0, -4, 1},           {0xFFFF0001, 0, -3, -4}, {0xFFFF0000, 0, -3, -4},
    {0xFFFF0F0F, 2, -3, -4},          {0xFFFFFFFF, 1, -3, 2},  {0xFFFFFFFF, 2, -3, -4},
    {0xFFFF0001, 0xFFFFFFFF, -3, -4}, {0xFFFE0001, 0, -4, -4}, {0x7FFF0001, 0, -4, -4},
    {0x0F0F0101, 0, -4, -4},          {0x8F0F0001, 0, -4, -4}, {0x0F0E0001, 0, -4, -4},
};

static const struct search classes[] = {
    {0x00118000, 0, 1, 1},   {0x00118000, 1, 2, 2},   {0x00118000, 2, -4, -4},
    {0x00118055, 0, -4, -4}, {0x01118055, 0, -4, 1},  {0x02110000, 1, -4, 2},
    {0x04008000, 0, -4, 1},  {0x07000000, 1, -4, 2},  {0xFF118000, 0, 1, 1},
    {0xFF118000, 1, 2, 2},   {0xFF118000, 2, -4, -4}, {0xF8118000, 1, 2, 2},
    {0xFF118001, 0, -4, 1},  {0xFF118100, 0, -4, 1},  {0xFF128000, 0, -4, 1},
    {0x00108000, 0, -4, -4},
};

static int32_t wanted_of(const struct search *search, uint32_t edition) {
    return edition == DRAFT ? search->draft : edition == LATER ? search->later : -2;
}

static void test_searches(void) {
    load_fresh();
    for (size_t e = 0; e < COUNT(editions); e++) {
        uint32_t edition = editions[e];
        for (size_t i = 0; i < COUNT(devices); i++)
            LEAVES(wanted_of(&devices[i], edition),
                   pci_find_device(&board, devices[i].sought, devices[i].index, edition));
        for (size_t i = 0; i < COUNT(classes); i++)
            LEAVES(wanted_of(&classes[i], edition),
                   pci_find_class(&board, classes[i].sought, classes[i].index, edition));
    }
}

/* On a board without functions a search finds nothing, and its refusals are the same. */
static void test_empty_board(void) {
    memset(&board, 0, sizeof board);
    for (size_t e = 0; e < COUNT(editions); e++) {
        uint32_t edition = editions[e];
        int32_t none = is_known(edition) ? -4 : -2;
        for (size_t i = 0; i < COUNT(devices); i++)
            LEAVES(edition == DRAFT && devices[i].sought >> 16 == 0xFFFF ? -3 : none,
                   pci_find_device(&board, devices[i].sought, devices[i].index, edition));
        LEAVES(none, pci_find_class(&board, 0x00118000, 0, edition));
        LEAVES(none, pci_find_class(&board, 0x07000000, 0, edition));
        LEAVES(is_known(edition) ? -9 : -2,
               pci_write_data(&board, NULL, 0, 0, 4, 1, 0x80000000, 1, edition));
    }
}

/* A card with device FFFFh is one like others, and one with vendor FFFFh, which only an altered
   board has, is not searched for. */
static void test_ones(void) {
    load_fresh();
    memset(board.registers + 256 + 2, 0xFF, 2);
    LEAVES(2, pci_find_device(&board, 0x0F0FFFFF, 0, DRAFT));
    LEAVES(-4, pci_find_device(&board, 0x0F0FFFFF, 1, DRAFT));
    memset(board.registers + 256, 0xFF, 2);
    LEAVES(-3, pci_find_device(&board, 0xFFFFFFFF, 0, DRAFT));
    LEAVES(1, pci_find_device(&board, 0x0F0F0001, 0, DRAFT));
    LEAVES(-4, pci_find_device(&board, 0x0F0F0001, 1, DRAFT));
}

/* ---- Data calls ---- */

/* A call with a bus address, and its number in both editions. */
struct access {
    int io;
    unsigned width;
    uint32_t handle, bus;
    size_t cells_length;
    int32_t number;
};

/* Where two refusals apply the first counts: another width before a bad handle, that before short
   cells, these before the address. */
static const struct access accesses[] = {
    {0, 4, 1, 0x800003FC, 2064, 0},  {0, 2, 1, 0x80000002, 2064, 0},
    {0, 1, 1, 0x800003FF, 2064, 0},  {0, 4, 2, 0x80000400, 2064, 0},
    {0, 2, 2, 0x800007FE, 2064, 0},  {1, 1, 2, 0x10F, 2064, 0},
    {0, 3, 1, 0x80000000, 2064, -8}, {0, 0, 9, 0x80000000, 0, -8},
    {1, 0x101, 2, 0x100, 2064, -8},  {0, 4, 9, 0x80000000, 2064, -9},
    {0, 2, 0, 0x80000000, 2064, -9}, {1, 1, 3, 0x100, 2064, -9},
    {0, 1, 0xFFFFFFFF, 1, 0, -9},    {0, 4, 1, 0x80000000, 2063, -7},
    {0, 4, 1, 0x80000001, 0, -7},    {1, 1, 2, 0x100, 2063, -7},
    {0, 2, 1, 0x80000001, 2064, -8}, {0, 4, 2, 0x80000402, 2064, -8},
    {1, 2, 2, 0x101, 2064, -8},      {0, 4, 1, 0x80000400, 2064, -8},
    {0, 1, 1, 0x7FFFFFFF, 2064, -8}, {0, 4, 2, 0x800003FC, 2064, -8},
    {1, 1, 2, 0x110, 2064, -8},      {1, 1, 2, 0xFF, 2064, -8},
    {0, 1, 2, 0x100, 2064, -8},      {1, 1, 1, 0x100, 2064, -8},
    {1, 2, 2, 0x100, 2064, -2},      {1, 4, 2, 0x10C, 2064, -2},
};

/* With handle 2 moved onto handle 1. */
static const struct access contested[] = {
    {0, 4, 1, 0x80000000, 2064, -8}, {0, 1, 2, 0x800003FF, 2064, -8},
    {0, 2, 1, 0x80000001, 2064, -8}, {0, 4, 9, 0x80000000, 2064, -9},
    {0, 4, 2, 0x80000000, 2063, -7}, {1, 1, 2, 0x100, 2064, 0},
};

static uint32_t all_ones(unsigned width) {
    return width == 1 ? 0xFF : width == 2 ? 0xFFFF : 0xFFFFFFFF;
}

static void check_refused(const struct access *a, uint32_t address, uint32_t edition,
                          int32_t number) {
    const uint8_t *read_from = a->cells_length == 0 ? NULL : cells;
    value = 0xA5A5A5A5;
    fault = 77;
    LEAVES(number, pci_read_data(&board, read_from, a->cells_length, a->io, a->width, a->handle,
                                 address, edition, &value));
    GIVES(0, value);
    LEAVES(all_ones(a->width), pci_fast_read_data(&board, read_from, a->cells_length, a->io,
                                                  a->width, a->handle, address, edition, &fault));
    GIVES(1, fault);
    LEAVES(number, pci_write_data(&board, cells, a->cells_length, a->io, a->width, a->handle,
                                  address, 0x5A5A5A5A, edition));
}

static void check_accepted(const struct access *a, uint32_t address, uint32_t edition) {
    static uint32_t written = 0x01020304;
    written = written * 0x9E3779B1 + 1;
    fault = 77;
    ALTERS(0, pci_write_data(&board, cells, a->cells_length, a->io, a->width, a->handle, address,
                             written, edition));
    LEAVES(0, pci_read_data(&board, cells, a->cells_length, a->io, a->width, a->handle, address,
                            edition, &value));
    GIVES(written & all_ones(a->width), value);
    LEAVES(value, pci_fast_read_data(&board, cells, a->cells_length, a->io, a->width, a->handle,
                                     address, edition, &fault));
    GIVES(0, fault);
    LEAVES(0, pci_read_data(&board, cells, a->cells_length, a->io, a->width, a->handle, a->bus,
                            LATER, &value));
    GIVES(written & all_ones(a->width), value);
}

/* With the offsets F0000000h of handle 1 and 1000h of handle 2. */
static void check_access(const struct access *a, uint32_t edition) {
    uint32_t offset = a->handle == 1 ? 0xF0000000 : a->handle == 2 ? 0x1000 : 0;
    uint32_t address = edition == DRAFT ? a->bus + offset : a->bus;
    int32_t number = is_known(edition) ? a->number : -2;
    if (number == 0)
        check_accepted(a, address, edition);
    else
        check_refused(a, address, edition, number);
}

static void test_accesses(void) {
    load_offsets(0xF0000000, 0x1000);
    for (size_t e = 0; e < COUNT(editions); e++)
        for (size_t i = 0; i < COUNT(accesses); i++)
            check_access(&accesses[i], editions[e]);
    ALTERS(0, pci_write_config(&board, 4, 2, 0x10, 0x80000000));
    for (size_t e = 0; e < COUNT(editions); e++)
        for (size_t i = 0; i < COUNT(contested); i++)
            check_access(&contested[i], editions[e]);
}

/* Without an offset the editions agree, refused or not. */
static void test_no_offset(void) {
    static const uint32_t known[] = {DRAFT, LATER};
    load_offsets(0, 0);
    for (size_t i = 0; i < COUNT(accesses); i++)
        for (size_t e = 0; e < COUNT(known); e++)
            if (accesses[i].number == 0)
                check_accepted(&accesses[i], accesses[i].bus, known[e]);
            else
                check_refused(&accesses[i], accesses[i].bus, known[e], accesses[i].number);
}

/* ---- The request's numbers ---- */

static int32_t write_long(uint32_t handle, uint32_t address, uint32_t edition) {
    return pci_write_data(&board, cells, 2064, 0, 4, handle, address, 0x11223344, edition);
}

/* B1's image with the first byte of handle 1's offset F0h: the sum is 0F78h. */
static void test_request(void) {
    uint8_t moved[sizeof image];
    uint32_t place;
    memcpy(moved, image, sizeof moved);
    memset(moved + 544 + 536, 0, 8);
    moved[536] = 0xF0;
    put_trailer(moved, 2);
    GIVES(0x0F, moved[1098]);
    GIVES(0x78, moved[1099]);
    GIVES(0, pci_load(&board, cells, sizeof cells, moved, sizeof moved, &place));
    LEAVES(2, pci_find_device(&board, 0x0F0F0001, 1, 1));
    LEAVES(-4, pci_find_device(&board, 0x00010F0F, 0, 1));
    LEAVES(-4, pci_find_device(&board, 0x0000FFFF, 0, 1));
    LEAVES(-3, pci_find_device(&board, 0xFFFF0001, 0, 1));
    LEAVES(-4, pci_find_class(&board, 0x01118055, 0, 1));
    LEAVES(1, pci_find_class(&board, 0xFF118000, 0, 1));
    LEAVES(-2, pci_find_device(&board, 0x0F0F0001, 1, 3));
    LEAVES(-2, write_long(9, 0x80000000, 0));
    LEAVES(-8, write_long(1, 0x70000400, 1));
    LEAVES(-8, write_long(1, 0x800003FC, 1));
    ALTERS(0, write_long(1, 0x700003FC, 1));
    LEAVES(0, pci_read_data(&board, cells, 2064, 0, 4, 1, 0x800003FC, 2, &value));
    GIVES(0x11223344, value);
}

/* A window that ends at 2^32, with the offset 400h: CPU address 0 is its first byte, 3FFh its
   last. */
static void test_past_the_end(void) {
    load_offsets(0x400, 0);
    ALTERS(0, pci_write_config(&board, 4, 1, 0x10, 0xFFFFFC00));
    ALTERS(0, write_long(1, 0, DRAFT));
    GIVES(0, memcmp(cells, (uint8_t[4]){0x11, 0x22, 0x33, 0x44}, 4));
    LEAVES(0, pci_read_data(&board, cells, 2064, 0, 4, 1, 0xFFFFFC00, LATER, &value));
    GIVES(0x11223344, value);
    ALTERS(0, write_long(1, 0x3FC, DRAFT));
    LEAVES(0x11223344, pci_fast_read_data(&board, cells, 2064, 0, 4, 1, 0xFFFFFFFC, LATER, &fault));
    GIVES(0, fault);
    LEAVES(-8, write_long(1, 0x400, DRAFT));
    LEAVES(-8, write_long(1, 0xFFFFFFFC, DRAFT));
    LEAVES(-8, write_long(1, 0, LATER));
}

void test_editions(void) {
    test_searches();
    test_empty_board();
    test_ones();
    test_accesses();
    test_no_offset();
    test_request();
    test_past_the_end();
}
