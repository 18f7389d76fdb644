/* The calls on a modelled board, for C. Link pci_bios.c and crates/bios/out/libbios.a, which
   `rt lib` makes in crates/bios. */
#ifndef PCI_BIOS_H
#define PCI_BIOS_H

#include <stddef.h>
#include <stdint.h>

/* What a board is kept in. All zero is the board before the first load; nothing is kept
   anywhere else. */
struct pci_board {
    uint32_t header[4];
    uint8_t records[16 * 544];
    uint8_t registers[16 * 256];
    uint64_t windows[96];
    uint32_t cell_offsets[97];
    uint32_t hooks[3 * 16];
    uint32_t used[2 * 16];
};

/* A window of the list; `contested` is 1 where another open window of its space shares
   an address. */
struct pci_window {
    int io;
    uint32_t start, length, handle, base;
    int contested;
};

/* A descriptor: the fields in the order of its 20 bytes. */
struct pci_descriptor {
    uint16_t next, flags;
    uint32_t start, length, offset, dmaoffset;
};

/* What is lent to one call, buffers and the variables for results, overlaps neither itself nor the
   board; a build without NDEBUG asserts it. A buffer of length 0 may be NULL. Every call writes all
   of its results, refused or not. */

/* The number of an image's first refusal, 0 for none, 8 left out; with 6 the place of the record
   at fault, else 0. */
int32_t pci_check_image(const uint8_t *image, size_t length, uint32_t *place);

/* Loads an image; number and place as above, and 8 where the cells are too short. A refused load
   changes nothing. Aborts with a message where the library's board has other lengths than
   struct pci_board. */
int32_t pci_load(struct pci_board *board, uint8_t *cells, size_t cells_length, const uint8_t *image,
                 size_t length, uint32_t *place);

/* The board as loaded: 0, or -7 where the cells are shorter than its total. */
int32_t pci_reset(struct pci_board *board, uint8_t *cells, size_t cells_length);

/* The loaded board as an image: 0, 1 where the output is too short, 3 for an empty board. */
int32_t pci_write_image(const struct pci_board *board, uint8_t *out, size_t length);

/* Window n of the list, from 0: 0, or -4 and zeros past the end. */
int32_t pci_list_window(const struct pci_board *board, uint32_t n, struct pci_window *window);

/* Searches and data calls name the edition of the text that their arguments are written to. Any
   other number than these two is refused with -2 before all else; 102h is not 2. */
#define PCI_DRAFT_1_9 1u
#define PCI_LATER_TEXT 2u

/* The handle of the match with `index` matches before it. In the later text an ID is the device in
   bits 31..16 and the vendor in 15..0; vendor FFFFh matches every function, whatever the device.
   In draft 1.9 it is the vendor in bits 31..16 and the device in 15..0. Refusals, the first that
   applies: -2 another edition, -3 vendor FFFFh in draft 1.9, -4 no more matches. */
int32_t pci_find_device(const struct pci_board *board, uint32_t id, uint32_t index,
                        uint32_t edition);

/* The same for a class code in bits 23..0. In the later text bits 26, 25, 24 set mean ignore its
   base class, sub class, interface, and bits 31..27 play no part; in draft 1.9 bits 31..24 play
   none. Refusals: -2 another edition, -4 no more matches. */
int32_t pci_find_class(const struct pci_board *board, uint32_t class_code, uint32_t index,
                       uint32_t edition);

/* Configuration calls: the width is 1, 2 or 4 bytes, least byte first. Their refusals, the first
   that applies: -8 another width, -9 a bad handle, -5 a register that is not a multiple of
   the width. */

/* The value of a register: 0, or a refusal and the value 0. */
int32_t pci_read_config(const struct pci_board *board, unsigned width, uint32_t handle, uint8_t reg,
                        uint32_t *value);

/* The value itself, with fault 0; where the read is refused all ones of its width, with fault 1.
   Another width than 1, 2 or 4 gives FFFFFFFFh. */
uint32_t pci_fast_read_config(const struct pci_board *board, unsigned width, uint32_t handle,
                              uint8_t reg, int *fault);

/* Writes the low bytes of the value where the masks have 1: 0, also where none has, or a refusal
   that changes nothing. In status (06h and 07h) a 1 clears such a bit, and a 0 leaves it. Writes to
   04h and 10h-27h open, close and move windows; the list then shows it. */
int32_t pci_write_config(struct pci_board *board, unsigned width, uint32_t handle, uint8_t reg,
                         uint32_t value);

/* Data calls: an address in memory (io 0) or I/O (any other io), the width is 1, 2 or 4 bytes. In
   the later text the address is a PCI bus address; in draft 1.9 it is a physical CPU address, and
   the bus address is that less the offset of the handle's function, modulo 2^32. The cells are the
   buffer that was lent to the load; the window's byte order says which of them an access means.
   Their refusals, the first that applies: -2 another edition, -8 another width, -9 a bad handle,
   -7 cells shorter than the board's total, -8 a bus address that is not a multiple of the width,
   -8 one that no open window of this very handle holds in that space, -8 a contested window,
   -2 a width that the window does not offer. */

/* The value at an address: 0, or a refusal and the value 0. */
int32_t pci_read_data(const struct pci_board *board, const uint8_t *cells, size_t cells_length,
                      int io, unsigned width, uint32_t handle, uint32_t address, uint32_t edition,
                      uint32_t *value);

/* The value itself, with fault 0; where the read is refused all ones of its width, with fault 1.
   Another width than 1, 2 or 4 gives FFFFFFFFh. */
uint32_t pci_fast_read_data(const struct pci_board *board, const uint8_t *cells,
                            size_t cells_length, int io, unsigned width, uint32_t handle,
                            uint32_t address, uint32_t edition, int *fault);

/* Writes the low bytes of the value, so that the same read gives them back: 0, or a refusal that
   changes nothing. Only the cells of its width change. */
int32_t pci_write_data(struct pci_board *board, uint8_t *cells, size_t cells_length, int io,
                       unsigned width, uint32_t handle, uint32_t address, uint32_t value,
                       uint32_t edition);

/* Conversions of any address by the offset of a handle's function, modulo 2^32: 0, or -9 and
   the address 0. */
int32_t pci_bus_to_cpu(const struct pci_board *board, uint32_t handle, uint32_t address,
                       uint32_t *cpu);
int32_t pci_cpu_to_bus(const struct pci_board *board, uint32_t handle, uint32_t address,
                       uint32_t *bus);

/* Writes the descriptors of a function's windows, 20 bytes each, in base register order: 0, or
   -9 a bad handle, -8 no windows, -7 an output that is too short, which change nothing. Bytes past
   the last descriptor stay. */
int32_t pci_get_resource(const struct pci_board *board, uint32_t handle, uint8_t *out,
                         size_t length);

/* The descriptor at a position, and the position after it: 1, or 0 with zeros and the position as
   it was where 20 bytes do not remain. After a descriptor with the last mark or with next below 20
   the position is the end. */
int32_t pci_descriptor_step(const uint8_t *bytes, size_t length, size_t at,
                            struct pci_descriptor *descriptor, size_t *following);

/* Puts a handler and its parameter last on the chain of the function's loaded line: 0, or
   -9 a bad handle, -8 pin 0 or line above 15, -6 already hooked. */
int32_t pci_hook_interrupt(struct pci_board *board, uint32_t handle, uint32_t handler,
                           uint32_t parameter);

/* Takes the function's hook from its chain, the others keep their order: 0, or -9 a bad handle,
   -8 not hooked. */
int32_t pci_unhook_interrupt(struct pci_board *board, uint32_t handle);

/* The hook with this index on a line's chain, from 0: 0, or -8 line above 15, -4 past the end,
   with zeros. */
int32_t pci_list_chain(const struct pci_board *board, uint32_t line, uint32_t index,
                       uint32_t *handle, uint32_t *handler, uint32_t *parameter);

/* The used status of a function and its call-back address: 0, or -9 and zeros. The status is 0
   free, 1 in use, 2 in use with a call-back, 3 may be taken over. */
int32_t pci_get_card_used(const struct pci_board *board, uint32_t handle, uint32_t *status,
                          uint32_t *callback);

/* Sets them, the call-back address being kept for 2 and 0 otherwise: 0, or -9 a bad handle,
   -8 a status above 3. */
int32_t pci_set_card_used(struct pci_board *board, uint32_t handle, uint32_t status,
                          uint32_t callback);

/* Not supported: always -2. */
int32_t pci_special_cycle(uint8_t bus, uint32_t data);
int32_t pci_get_routing(void);
int32_t pci_set_interrupt(void);

#endif
