/* The calls of pci_driver.h over those of pci_bios.h: the current board, and pointers where
   a board has numbers. */
#include <string.h>
#include "pci_bios.h"

/* The functions of both editions stand here under their own names, whatever edition a program is
   compiled with. */
#undef PCI_DRIVER_EDITION
#define PCI_DRIVER_EDITION 2
#include "pci_driver.h"

enum space { MEMORY, IO };

/* What is kept for a function; a board keeps 32 bits where drivers hand over pointers. A function
   has at most one hook and one call-back, so its handle is the token that the board is given for
   them. They count only while the board has that token: what an unhook, a load or a reset takes
   from the board is gone here too. */
static struct kept {
    pci_handler *routine;
    void *parameter;
    pci_callback *callback;
    struct resource_descriptor descriptors[6];
} kept[16];

static struct pci_board empty, *board = &empty;
static uint8_t *cells;
static size_t cells_length;

void pci_use_board(struct pci_board *new_board, uint8_t *new_cells, size_t new_length) {
    board = new_board == NULL ? &empty : new_board;
    cells = new_board == NULL ? NULL : new_cells;
    cells_length = new_board == NULL ? 0 : new_length;
    memset(kept, 0, sizeof kept);
}

/* The entry of a handle. Those that calls take are 1 to 16; of any other, which a caller may have
   put on an altered board's chain, the entry is not looked at. */
static struct kept *kept_of(ULONG handle) {
    return &kept[(handle - 1) % 16];
}

LONG find_pci_device(ULONG id, UWORD index) {
    return pci_find_device(board, id, index, PCI_LATER_TEXT);
}

LONG draft_find_pci_device(ULONG id, UWORD index) {
    return pci_find_device(board, id, index, PCI_DRAFT_1_9);
}

LONG find_pci_classcode(ULONG classcode, UWORD index) {
    return pci_find_class(board, classcode, index, PCI_LATER_TEXT);
}

LONG draft_find_pci_classcode(ULONG classcode, UWORD index) {
    return pci_find_class(board, classcode, index, PCI_DRAFT_1_9);
}

LONG read_config_byte(LONG handle, UBYTE reg, UBYTE *address) {
    uint32_t value;
    LONG number = pci_read_config(board, 1, (uint32_t)handle, reg, &value);
    *address = (UBYTE)value;
    return number;
}

LONG read_config_word(LONG handle, UBYTE reg, UWORD *address) {
    uint32_t value;
    LONG number = pci_read_config(board, 2, (uint32_t)handle, reg, &value);
    *address = (UWORD)value;
    return number;
}

LONG read_config_longword(LONG handle, UBYTE reg, ULONG *address) {
    uint32_t value;
    LONG number = pci_read_config(board, 4, (uint32_t)handle, reg, &value);
    *address = (ULONG)value;
    return number;
}

UBYTE fast_read_config_byte(LONG handle, UBYTE reg) {
    int fault;
    return (UBYTE)pci_fast_read_config(board, 1, (uint32_t)handle, reg, &fault);
}

UWORD fast_read_config_word(LONG handle, UBYTE reg) {
    int fault;
    return (UWORD)pci_fast_read_config(board, 2, (uint32_t)handle, reg, &fault);
}

ULONG fast_read_config_longword(LONG handle, UBYTE reg) {
    int fault;
    return (ULONG)pci_fast_read_config(board, 4, (uint32_t)handle, reg, &fault);
}

LONG write_config_byte(LONG handle, UBYTE reg, UBYTE val) {
    return pci_write_config(board, 1, (uint32_t)handle, reg, val);
}

LONG write_config_word(LONG handle, UBYTE reg, UWORD val) {
    return pci_write_config(board, 2, (uint32_t)handle, reg, val);
}

LONG write_config_longword(LONG handle, UBYTE reg, ULONG val) {
    return pci_write_config(board, 4, (uint32_t)handle, reg, val);
}

LONG hook_interrupt(LONG handle, pci_handler *routine, void *parameter) {
    uint32_t token = (uint32_t)handle;
    LONG number = pci_hook_interrupt(board, (uint32_t)handle, token, token);
    if (number == PCI_SUCCESSFUL) {
        kept_of(token)->routine = routine;
        kept_of(token)->parameter = parameter;
    }
    return number;
}

LONG unhook_interrupt(LONG handle) {
    return pci_unhook_interrupt(board, (uint32_t)handle);
}

LONG pci_list_handlers(ULONG line, ULONG index, LONG *handle, pci_handler **routine,
                       void **parameter) {
    uint32_t hooked, token, same;
    LONG number = pci_list_chain(board, line, index, &hooked, &token, &same);
    *handle = (LONG)hooked;
    int ours = number == PCI_SUCCESSFUL && token == hooked && hooked <= 16;
    *routine = ours ? kept_of(token)->routine : NULL;
    *parameter = ours ? kept_of(token)->parameter : NULL;
    return number;
}

LONG special_cycle(UBYTE bus, ULONG data) {
    return pci_special_cycle(bus, data);
}

LONG get_routing(void) {
    return pci_get_routing();
}

LONG set_interrupt(void) {
    return pci_set_interrupt();
}

intptr_t get_resource(LONG handle) {
    struct resource_descriptor *to = kept_of((uint32_t)handle)->descriptors;
    uint8_t bytes[sizeof kept->descriptors] = {0}; /* a trace keeps what an output held before */
    struct pci_descriptor d;
    size_t at = 0;
    LONG number = pci_get_resource(board, (uint32_t)handle, bytes, sizeof bytes);
    if (number != PCI_SUCCESSFUL)
        return number;
    for (size_t i = 0; pci_descriptor_step(bytes, sizeof bytes, at, &d, &at) == 1; i++)
        to[i] =
            (struct resource_descriptor){d.next, d.flags, d.start, d.length, d.offset, d.dmaoffset};
    return (intptr_t)to;
}

LONG get_card_used(LONG handle, pci_callback **callback) {
    uint32_t status, token;
    LONG number = pci_get_card_used(board, (uint32_t)handle, &status, &token);
    int ours = status == 2 && token == (uint32_t)handle;
    *callback = ours ? kept_of(token)->callback : NULL;
    return number == PCI_SUCCESSFUL ? (LONG)status : number;
}

LONG set_card_used(LONG handle, pci_callback *callback) {
    uintptr_t entry = (uintptr_t)callback;
    uint32_t status = entry == 0 || entry == 1 || entry == 3 ? (uint32_t)entry : 2;
    LONG number = pci_set_card_used(board, (uint32_t)handle, status, (uint32_t)handle);
    if (number == PCI_SUCCESSFUL)
        kept_of((uint32_t)handle)->callback = callback;
    return number;
}

static LONG write_data(enum space space, unsigned width, LONG handle, ULONG address, ULONG data,
                       uint32_t edition) {
    return pci_write_data(board, cells, cells_length, space, width, (uint32_t)handle, address, data,
                          edition);
}

/* There are 36 data calls, by space, width and edition. What those of a kind share stands once, in
   one of the next four; below them each has a line. The type says the width. */

#define READ(name, space, type, edition)                                             \
    LONG name(LONG handle, ULONG address, type *data) {                              \
        uint32_t value;                                                              \
        LONG number = pci_read_data(board, cells, cells_length, space, sizeof *data, \
                                    (uint32_t)handle, address, edition, &value);     \
        *data = (type)value;                                                         \
        return number;                                                               \
    }

#define FAST_READ(name, space, type, edition)                                            \
    type name(LONG handle, ULONG address) {                                              \
        int fault;                                                                       \
        return (type)pci_fast_read_data(board, cells, cells_length, space, sizeof(type), \
                                        (uint32_t)handle, address, edition, &fault);     \
    }

#define WRITE(name, space, type)                                                      \
    LONG name(LONG handle, ULONG address, type data) {                                \
        return write_data(space, sizeof data, handle, address, data, PCI_LATER_TEXT); \
    }

/* The draft's writes differ in what they are handed. */
#define DRAFT_WRITE(name, space, type)                                                 \
    LONG name(LONG handle, ULONG address, const type *data) {                          \
        return write_data(space, sizeof *data, handle, address, *data, PCI_DRAFT_1_9); \
    }

READ(read_mem_byte, MEMORY, UBYTE, PCI_LATER_TEXT)
READ(read_mem_word, MEMORY, UWORD, PCI_LATER_TEXT)
READ(read_mem_longword, MEMORY, ULONG, PCI_LATER_TEXT)
READ(read_io_byte, IO, UBYTE, PCI_LATER_TEXT)
READ(read_io_word, IO, UWORD, PCI_LATER_TEXT)
READ(read_io_longword, IO, ULONG, PCI_LATER_TEXT)
READ(draft_read_mem_byte, MEMORY, UBYTE, PCI_DRAFT_1_9)
READ(draft_read_mem_word, MEMORY, UWORD, PCI_DRAFT_1_9)
READ(draft_read_mem_longword, MEMORY, ULONG, PCI_DRAFT_1_9)
READ(draft_read_io_byte, IO, UBYTE, PCI_DRAFT_1_9)
READ(draft_read_io_word, IO, UWORD, PCI_DRAFT_1_9)
READ(draft_read_io_longword, IO, ULONG, PCI_DRAFT_1_9)

FAST_READ(fast_read_mem_byte, MEMORY, UBYTE, PCI_LATER_TEXT)
FAST_READ(fast_read_mem_word, MEMORY, UWORD, PCI_LATER_TEXT)
FAST_READ(fast_read_mem_longword, MEMORY, ULONG, PCI_LATER_TEXT)
FAST_READ(fast_read_io_byte, IO, UBYTE, PCI_LATER_TEXT)
FAST_READ(fast_read_io_word, IO, UWORD, PCI_LATER_TEXT)
FAST_READ(fast_read_io_longword, IO, ULONG, PCI_LATER_TEXT)
FAST_READ(draft_fast_read_mem_byte, MEMORY, UBYTE, PCI_DRAFT_1_9)
FAST_READ(draft_fast_read_mem_word, MEMORY, UWORD, PCI_DRAFT_1_9)
FAST_READ(draft_fast_read_mem_longword, MEMORY, ULONG, PCI_DRAFT_1_9)
FAST_READ(draft_fast_read_io_byte, IO, UBYTE, PCI_DRAFT_1_9)
FAST_READ(draft_fast_read_io_word, IO, UWORD, PCI_DRAFT_1_9)
FAST_READ(draft_fast_read_io_longword, IO, ULONG, PCI_DRAFT_1_9)

WRITE(write_mem_byte, MEMORY, UBYTE)
WRITE(write_mem_word, MEMORY, UWORD)
WRITE(write_mem_longword, MEMORY, ULONG)
WRITE(write_io_byte, IO, UBYTE)
WRITE(write_io_word, IO, UWORD)
WRITE(write_io_longword, IO, ULONG)
DRAFT_WRITE(draft_write_mem_byte, MEMORY, UBYTE)
DRAFT_WRITE(draft_write_mem_word, MEMORY, UWORD)
DRAFT_WRITE(draft_write_mem_longword, MEMORY, ULONG)
DRAFT_WRITE(draft_write_io_byte, IO, UBYTE)
DRAFT_WRITE(draft_write_io_word, IO, UWORD)
DRAFT_WRITE(draft_write_io_longword, IO, ULONG)
