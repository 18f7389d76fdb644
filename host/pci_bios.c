/* The calls of pci_bios.h over the proved static library, which bios_library.h declares: numbers
   and pointers are passed on, and told to a recorder where there is one; no rule stands here. */
#include <assert.h>
#include <inttypes.h>
#include <stdio.h>
#include <stdlib.h>
#include "bios_library.h"
#include "pci_bios.h"
#include "pci_record.h"

#ifdef NDEBUG
#define LENT(...) ((void)0)
#else
/* Whether each part that is lent to a call has an address, unless it is empty, and no two
   share a byte. */
static int lent_apart(const struct pci_lent *parts, size_t count) {
    for (size_t i = 0; i < count; i++) {
        uintptr_t a = (uintptr_t)parts[i].start;
        if (parts[i].start == NULL && parts[i].length > 0)
            return 0;
        for (size_t j = 0; j < count; j++) {
            uintptr_t b = (uintptr_t)parts[j].start;
            if (j != i && a <= b && b - a < parts[i].length && parts[j].length > 0)
                return 0;
        }
    }
    return 1;
}

/* What is lent to one call: its board, its buffers, the variables for its results. The library may
   take it for granted that they are apart, so a debug build looks. */
#define LENT(...)                                                  \
    do {                                                           \
        const struct pci_lent parts[] = {__VA_ARGS__};             \
        assert(lent_apart(parts, sizeof parts / sizeof parts[0])); \
    } while (0)
#endif

const struct pci_recorder *pci_recorder;

/* Tells the recorder, where there is one, of a call on a board: the operation, then the fields
   that it has. */
#define CALL(on, what, ...)                                                                      \
    do {                                                                                         \
        if (pci_recorder != NULL)                                                                \
            pci_recorder->call(&(struct pci_call){.board = on, .operation = what, __VA_ARGS__}); \
    } while (0)

/* The field of a call that takes cells. */
#define CELLS(start, length) .cells = &(struct pci_lent){start, length}

/* An edition as a script says it, 0 and 2 exchanged: there 0 is the later text, which all calls
   were written to before they named one. */
static uint32_t script_edition(uint32_t edition) {
    return edition == 0 || edition == PCI_LATER_TEXT ? PCI_LATER_TEXT - edition : edition;
}

/* Tells the recorder of the answer: the number, whether the call was refused, up to six values. */
#define ANSWER(on, number, refused, ...)                                                    \
    do {                                                                                    \
        if (pci_recorder != NULL)                                                           \
            pci_recorder->answer(on, &(struct pci_answer){number, refused, {__VA_ARGS__}}); \
    } while (0)

/* An empty buffer may be NULL here; the library is given an address in every case. Nothing is
   read or written there. */
static uint8_t *given(uint8_t *bytes, size_t length) {
    static uint8_t nothing;
    return length == 0 ? &nothing : bytes;
}

static const uint8_t *given_const(const uint8_t *bytes, size_t length) {
    static const uint8_t nothing = 0;
    return length == 0 ? &nothing : bytes;
}

int32_t pci_check_image(const uint8_t *image, size_t length, uint32_t *place) {
    LENT({image, length}, {place, sizeof *place});
    return bios_check_image(given_const(image, length), length, SIZE_MAX, place);
}

/* The parts of struct pci_board as the library numbers them; past the last one it gives 0. */
#define PART(name) {#name, sizeof((struct pci_board *)0)->name}
static const struct {
    const char *name;
    size_t bytes;
} board_parts[] = {PART(header),       PART(records), PART(registers), PART(windows),
                   PART(cell_offsets), PART(hooks),   PART(used),      {"an eighth part", 0}};

/* A library with another layout would write past the parts of this one, so it is not called. */
static void check_layout(void) {
    for (uint32_t part = 0; part < sizeof board_parts / sizeof board_parts[0]; part++) {
        uint64_t bytes = bios_part_bytes(part);
        if (bytes != board_parts[part].bytes) {
            fprintf(stderr,
                    "pci_load: %s of a board has %zu bytes in pci_bios.h and %" PRIu64
                    " in the library\n",
                    board_parts[part].name, board_parts[part].bytes, bytes);
            abort();
        }
    }
}

int32_t pci_load(struct pci_board *board, uint8_t *cells, size_t cells_length, const uint8_t *image,
                 size_t length, uint32_t *place) {
    check_layout();
    LENT({board, sizeof *board}, {cells, cells_length}, {image, length}, {place, sizeof *place});
    CALL(board, OP_LOAD, .own = {image, length}, CELLS(cells, cells_length));
    int32_t number = bios_load(given_const(image, length), length, board->header, board->records,
                               board->registers, board->windows, board->cell_offsets, board->hooks,
                               board->used, given(cells, cells_length), cells_length, place);
    ANSWER(board, number, number != 0, *place);
    return number;
}

int32_t pci_reset(struct pci_board *board, uint8_t *cells, size_t cells_length) {
    LENT({board, sizeof *board}, {cells, cells_length});
    CALL(board, OP_RESET, CELLS(cells, cells_length));
    int32_t number = bios_reset(board->header, board->records, board->registers, board->windows,
                                board->cell_offsets, board->hooks, board->used,
                                given(cells, cells_length), cells_length);
    ANSWER(board, number, number != 0, 0);
    return number;
}

int32_t pci_write_image(const struct pci_board *board, uint8_t *out, size_t length) {
    LENT({board, sizeof *board}, {out, length});
    CALL(board, OP_WRITE_IMAGE, .own = {out, length});
    int32_t number =
        (int32_t)bios_write_image(board->header, board->records, given(out, length), length);
    ANSWER(board, number, number != 0, 0);
    return number;
}

int32_t pci_list_window(const struct pci_board *board, uint32_t n, struct pci_window *window) {
    LENT({board, sizeof *board}, {window, sizeof *window});
    CALL(board, OP_LIST_WINDOW, .a = n);
    uint64_t values[6];
    int32_t number = bios_list_window(board->windows, n, values);
    ANSWER(board, number, number != 0, values[0], values[1], values[2], values[3], values[4],
           values[5]);
    window->io = (int)values[0];
    window->start = (uint32_t)values[1];
    window->length = (uint32_t)values[2];
    window->handle = (uint32_t)values[3];
    window->base = (uint32_t)values[4];
    window->contested = (int)values[5];
    return number;
}

int32_t pci_find_device(const struct pci_board *board, uint32_t id, uint32_t index,
                        uint32_t edition) {
    CALL(board, OP_FIND_PCI_DEVICE, .a = id, .b = index, .c = script_edition(edition));
    int32_t number = bios_find_pci_device(board->header, board->registers, id, index, edition);
    ANSWER(board, number, number < 0, 0);
    return number;
}

int32_t pci_find_class(const struct pci_board *board, uint32_t class_code, uint32_t index,
                       uint32_t edition) {
    CALL(board, OP_FIND_PCI_CLASSCODE, .a = class_code, .b = index, .c = script_edition(edition));
    int32_t number =
        bios_find_pci_classcode(board->header, board->registers, class_code, index, edition);
    ANSWER(board, number, number < 0, 0);
    return number;
}

int32_t pci_read_config(const struct pci_board *board, unsigned width, uint32_t handle, uint8_t reg,
                        uint32_t *value) {
    LENT({board, sizeof *board}, {value, sizeof *value});
    CALL(board, OP_READ_CONFIG, .width = width, .reg = reg, .handle = handle);
    int32_t number = bios_read_config(board->header, board->registers, width, handle, reg, value);
    ANSWER(board, number, number != 0, *value);
    return number;
}

uint32_t pci_fast_read_config(const struct pci_board *board, unsigned width, uint32_t handle,
                              uint8_t reg, int *fault) {
    LENT({board, sizeof *board}, {fault, sizeof *fault});
    CALL(board, OP_FAST_READ_CONFIG, .width = width, .reg = reg, .handle = handle);
    uint32_t flag;
    uint32_t value =
        bios_fast_read_config(board->header, board->registers, width, handle, reg, &flag);
    ANSWER(board, 0, (int)flag, value);
    *fault = (int)flag;
    return value;
}

int32_t pci_write_config(struct pci_board *board, unsigned width, uint32_t handle, uint8_t reg,
                         uint32_t value) {
    CALL(board, OP_WRITE_CONFIG, .width = width, .reg = reg, .handle = handle, .a = value);
    int32_t number = bios_write_config(board->header, board->records, board->registers,
                                       board->windows, width, handle, reg, value);
    ANSWER(board, number, number != 0, 0);
    return number;
}

int32_t pci_read_data(const struct pci_board *board, const uint8_t *cells, size_t cells_length,
                      int io, unsigned width, uint32_t handle, uint32_t address, uint32_t edition,
                      uint32_t *value) {
    LENT({board, sizeof *board}, {cells, cells_length}, {value, sizeof *value});
    CALL(board, OP_READ_DATA, .width = width, .io = io, .handle = handle, .a = address,
         .c = script_edition(edition), CELLS(cells, cells_length));
    int32_t number =
        bios_read_data(board->header, board->records, board->windows, board->cell_offsets,
                       given_const(cells, cells_length), cells_length, (uint32_t)io, width, handle,
                       address, edition, value);
    ANSWER(board, number, number != 0, *value);
    return number;
}

uint32_t pci_fast_read_data(const struct pci_board *board, const uint8_t *cells,
                            size_t cells_length, int io, unsigned width, uint32_t handle,
                            uint32_t address, uint32_t edition, int *fault) {
    LENT({board, sizeof *board}, {cells, cells_length}, {fault, sizeof *fault});
    CALL(board, OP_FAST_READ_DATA, .width = width, .io = io, .handle = handle, .a = address,
         .c = script_edition(edition), CELLS(cells, cells_length));
    uint32_t flag;
    uint32_t value =
        bios_fast_read_data(board->header, board->records, board->windows, board->cell_offsets,
                            given_const(cells, cells_length), cells_length, (uint32_t)io, width,
                            handle, address, edition, &flag);
    ANSWER(board, 0, (int)flag, value);
    *fault = (int)flag;
    return value;
}

int32_t pci_write_data(struct pci_board *board, uint8_t *cells, size_t cells_length, int io,
                       unsigned width, uint32_t handle, uint32_t address, uint32_t value,
                       uint32_t edition) {
    LENT({board, sizeof *board}, {cells, cells_length});
    CALL(board, OP_WRITE_DATA, .width = width, .io = io, .handle = handle, .a = address, .b = value,
         .c = script_edition(edition), CELLS(cells, cells_length));
    int32_t number = bios_write_data(board->header, board->records, board->windows,
                                     board->cell_offsets, given(cells, cells_length), cells_length,
                                     (uint32_t)io, width, handle, address, value, edition);
    ANSWER(board, number, number != 0, 0);
    return number;
}

int32_t pci_bus_to_cpu(const struct pci_board *board, uint32_t handle, uint32_t address,
                       uint32_t *cpu) {
    LENT({board, sizeof *board}, {cpu, sizeof *cpu});
    CALL(board, OP_BUS_TO_CPU, .handle = handle, .a = address);
    int32_t number = bios_bus_to_cpu(board->header, board->records, handle, address, cpu);
    ANSWER(board, number, number != 0, *cpu);
    return number;
}

int32_t pci_cpu_to_bus(const struct pci_board *board, uint32_t handle, uint32_t address,
                       uint32_t *bus) {
    LENT({board, sizeof *board}, {bus, sizeof *bus});
    CALL(board, OP_CPU_TO_BUS, .handle = handle, .a = address);
    int32_t number = bios_cpu_to_bus(board->header, board->records, handle, address, bus);
    ANSWER(board, number, number != 0, *bus);
    return number;
}

int32_t pci_get_resource(const struct pci_board *board, uint32_t handle, uint8_t *out,
                         size_t length) {
    LENT({board, sizeof *board}, {out, length});
    CALL(board, OP_GET_RESOURCE, .handle = handle, .own = {out, length});
    int32_t number = bios_get_resource(board->header, board->records, board->registers,
                                       board->windows, handle, given(out, length), length);
    ANSWER(board, number, number != 0, 0);
    return number;
}

int32_t pci_descriptor_step(const uint8_t *bytes, size_t length, size_t at,
                            struct pci_descriptor *descriptor, size_t *following) {
    LENT({bytes, length}, {descriptor, sizeof *descriptor}, {following, sizeof *following});
    uint32_t fields[6];
    uint32_t found =
        bios_descriptor_step(given_const(bytes, length), length, at, fields, following);
    descriptor->next = (uint16_t)fields[0];
    descriptor->flags = (uint16_t)fields[1];
    descriptor->start = fields[2];
    descriptor->length = fields[3];
    descriptor->offset = fields[4];
    descriptor->dmaoffset = fields[5];
    return (int32_t)found;
}

int32_t pci_hook_interrupt(struct pci_board *board, uint32_t handle, uint32_t handler,
                           uint32_t parameter) {
    CALL(board, OP_HOOK_INTERRUPT, .handle = handle, .a = handler, .b = parameter);
    int32_t number = bios_hook_interrupt(board->header, board->records, board->hooks, handle,
                                         handler, parameter);
    ANSWER(board, number, number != 0, 0);
    return number;
}

int32_t pci_unhook_interrupt(struct pci_board *board, uint32_t handle) {
    CALL(board, OP_UNHOOK_INTERRUPT, .handle = handle);
    int32_t number = bios_unhook_interrupt(board->header, board->hooks, handle);
    ANSWER(board, number, number != 0, 0);
    return number;
}

int32_t pci_list_chain(const struct pci_board *board, uint32_t line, uint32_t index,
                       uint32_t *handle, uint32_t *handler, uint32_t *parameter) {
    LENT({board, sizeof *board}, {handle, sizeof *handle}, {handler, sizeof *handler},
         {parameter, sizeof *parameter});
    CALL(board, OP_LIST_CHAIN, .a = line, .b = index);
    uint64_t values[6];
    int32_t number = bios_list_chain(board->records, board->hooks, line, index, values);
    ANSWER(board, number, number != 0, values[0], values[1], values[2]);
    *handle = (uint32_t)values[0];
    *handler = (uint32_t)values[1];
    *parameter = (uint32_t)values[2];
    return number;
}

int32_t pci_get_card_used(const struct pci_board *board, uint32_t handle, uint32_t *status,
                          uint32_t *callback) {
    LENT({board, sizeof *board}, {status, sizeof *status}, {callback, sizeof *callback});
    CALL(board, OP_GET_CARD_USED, .handle = handle);
    int32_t number = bios_get_card_used(board->header, board->used, handle, status, callback);
    ANSWER(board, number, number != 0, *status, *callback);
    return number;
}

int32_t pci_set_card_used(struct pci_board *board, uint32_t handle, uint32_t status,
                          uint32_t callback) {
    CALL(board, OP_SET_CARD_USED, .handle = handle, .a = status, .b = callback);
    int32_t number = bios_set_card_used(board->header, board->used, handle, status, callback);
    ANSWER(board, number, number != 0, 0);
    return number;
}

int32_t pci_special_cycle(uint8_t bus, uint32_t data) {
    CALL(NULL, OP_SPECIAL_CYCLE, .reg = bus, .a = data);
    int32_t number = bios_special_cycle(bus, data);
    ANSWER(NULL, number, number != 0, 0);
    return number;
}

int32_t pci_get_routing(void) {
    CALL(NULL, OP_GET_ROUTING, .handle = 0);
    int32_t number = bios_get_routing(0);
    ANSWER(NULL, number, number != 0, 0);
    return number;
}

int32_t pci_set_interrupt(void) {
    CALL(NULL, OP_SET_INTERRUPT, .handle = 0, .a = 0);
    int32_t number = bios_set_interrupt(0, 0);
    ANSWER(NULL, number, number != 0, 0);
    return number;
}
