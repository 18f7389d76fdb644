/* Data calls of every byte order, in both spaces, both editions and by both layers: every address
   of a window at every width, against document 01's rule. */
#include <string.h>
#include "by_width.h"
#include "check.h"

/* Four windows of 16 cells each: memory of handle 1, I/O of handle 2. */
#define WINDOW_CELLS 16
static const uint8_t orders[4] = {0, 1, 2, 15};

static void put_window(uint8_t *record, unsigned base, uint32_t start, uint8_t order) {
    const uint8_t entry[4] = {4, order, 7, 0};
    for (unsigned i = 0; i < 4; i++) {
        record[0x10 + 4 * base + i] = (uint8_t)(start >> 8 * i);
        record[256 + 0x10 + 4 * base + i] = (uint8_t)(0xFFFFFFF0 >> 8 * i);
    }
    memcpy(record + 512 + 4 * base, entry, sizeof entry);
}

/* What draft 1.9 adds to the bus addresses of a space, its card having this offset. */
static const uint32_t offsets[2] = {0xF0000000, 0x1000};

/* The cells get values that all differ, none of them 0 or FFh. */
static void load_orders(void) {
    static uint8_t board_image[2 * 544 + 12];
    uint32_t place;
    memcpy(board_image, image, sizeof board_image);
    for (unsigned base = 0; base < 4; base++) {
        put_window(board_image, base, 0x80000000 + WINDOW_CELLS * base, orders[base]);
        put_window(board_image + 544, base, 0x101 + WINDOW_CELLS * base, orders[base]);
    }
    for (int io = 0; io < 2; io++)
        put_long(board_image + 544 * io + 536, offsets[io]);
    put_trailer(board_image, 2);
    GIVES(0, pci_load(&board, cells, sizeof cells, board_image, sizeof board_image, &place));
    for (unsigned i = 0; i < 8 * WINDOW_CELLS; i++)
        cells[i] = (uint8_t)(i + 1);
    pci_use_board(&board, cells, sizeof cells);
}

/* Which cell of a window has byte i, from the highest, of the value at a distance. */
static unsigned cell_of(uint8_t order, unsigned width, unsigned distance, unsigned i) {
    unsigned first = order != 1 ? distance : distance ^ (width == 1 ? 3 : width == 2 ? 2 : 0);
    return first + (order == 2 ? width - 1 - i : i);
}

static uint32_t value_at(const uint8_t *window, uint8_t order, unsigned width, unsigned distance) {
    uint32_t value = 0;
    for (unsigned i = 0; i < width; i++)
        value = value << 8 | window[cell_of(order, width, distance, i)];
    return value;
}

/* An address that is no multiple of the width is refused, and nothing else here. */
static void check_reads(uint32_t edition, int io, unsigned width, uint32_t bus, uint32_t wanted) {
    const struct data_calls *driver = edition == DRAFT ? &draft_calls : &later_calls;
    uint32_t address = edition == DRAFT ? bus + offsets[io] : bus;
    uint32_t handle = io ? 2 : 1, ones = 0xFFFFFFFF >> (32 - 8 * width), got = 0xEEEEEEEE;
    int refused = bus % width != 0, fault = 77;
    int32_t number = refused ? -8 : 0;
    LEAVES(number, pci_read_data(&board, cells, 128, io, width, handle, address, edition, &got));
    GIVES(refused ? 0 : wanted, got);
    LEAVES(refused ? ones : wanted,
           pci_fast_read_data(&board, cells, 128, io, width, handle, address, edition, &fault));
    GIVES(refused, fault);
    got = 0xEEEEEEEE;
    LEAVES(number, driver->read(io, width, (LONG)handle, address, &got));
    GIVES(refused ? 0 : wanted, got);
    LEAVES(refused ? ones : wanted, driver->fast_read(io, width, (LONG)handle, address));
}

static int32_t write_by(const struct data_calls *driver, uint32_t edition, int io, unsigned width,
                        uint32_t address, uint32_t value) {
    uint32_t handle = io ? 2 : 1;
    if (driver != NULL)
        return driver->write(io, width, (LONG)handle, address, value);
    return pci_write_data(&board, cells, 128, io, width, handle, address, value, edition);
}

/* Writes by one layer, then the other: the cells of the width change as the rule says, the others
   stay. `kept` is what all cells must be. */
static void check_writes(uint32_t edition, int io, unsigned width, uint32_t bus, uint8_t *kept,
                         uint8_t *window, uint8_t order) {
    static uint32_t value = 0x12345678;
    const struct data_calls *const layers[] = {NULL,
                                               edition == DRAFT ? &draft_calls : &later_calls};
    uint32_t address = edition == DRAFT ? bus + offsets[io] : bus;
    int32_t number = bus % width != 0 ? -8 : 0;
    for (int layer = 0; layer < 2; layer++) {
        value = value * 0x9E3779B1 + 1;
        for (unsigned i = 0; number == 0 && i < width; i++)
            window[cell_of(order, width, bus % WINDOW_CELLS, i)] =
                (uint8_t)(value >> 8 * (width - 1 - i));
        GIVES(number, write_by(layers[layer], edition, io, width, address, value));
        GIVES(0, memcmp(kept, cells, 129));
    }
}

/* What one edition writes the other reads next. */
static void check_window(int io, unsigned base, uint8_t *kept) {
    uint8_t *window = kept + WINDOW_CELLS * (io ? 4 + base : base), order = orders[base];
    uint32_t start = (io ? 0x100 : 0x80000000) + WINDOW_CELLS * base;
    for (unsigned width = 1; width <= 4; width *= 2)
        for (uint32_t distance = 0; distance < WINDOW_CELLS; distance++)
            for (uint32_t edition = DRAFT; edition <= LATER; edition++) {
                uint32_t wanted = value_at(window, order, width, distance - distance % width);
                check_reads(edition, io, width, start + distance, wanted);
                check_writes(edition, io, width, start + distance, kept, window, order);
            }
}

void test_orders(void) {
    uint8_t kept[129];
    load_orders();
    memcpy(kept, cells, sizeof kept);
    for (unsigned base = 0; base < 4; base++) {
        check_window(0, base, kept);
        check_window(1, base, kept);
    }
    pci_use_board(NULL, NULL, 0);
}
