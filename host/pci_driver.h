/* The PCI BIOS as drivers call it, on a current board of the model. Link pci_driver.c and what
   pci_bios.h names. */
#ifndef PCI_DRIVER_H
#define PCI_DRIVER_H

#include <stddef.h>
#include <stdint.h>

/* Names and types are those of document 003; where it gives no prototype they follow its others and
   the registers of documents 000 and 001. The calls are plain functions; pci_cookie.h has the table
   of draft 1.9. Register parameters and supervisor mode are the machine's. This layer keeps one
   current board, so it is for one thread; pci_bios.h takes any board. */

/* The text that a driver was written to: 1 is draft 1.9 (document 000), 2 the later one (001, 003).
   A driver of the draft defines it as 1 before it includes this header, and has the same names with
   the draft's meaning, which stands at the end; drivers of both texts link into one program. A
   definition without a value counts as 0. */
#ifndef PCI_DRIVER_EDITION
#define PCI_DRIVER_EDITION 2
#endif
#if PCI_DRIVER_EDITION + 0 != 1 && PCI_DRIVER_EDITION + 0 != 2
#error "PCI_DRIVER_EDITION is 1 (draft 1.9) or 2 (the later text), and nothing else"
#endif

/* A driver that has these types defines PCI_DRIVER_TYPES; they must have 32, 32, 16 and 8 bits. */
#ifndef PCI_DRIVER_TYPES
#define PCI_DRIVER_TYPES
typedef int32_t LONG;
typedef uint32_t ULONG;
typedef uint16_t UWORD;
typedef uint8_t UBYTE;
#endif

/* The compiler refuses other sizes here; with them results would be half written. */
typedef char pci_driver_longs[sizeof(LONG) == 4 && sizeof(ULONG) == 4 ? 1 : -1];
typedef char pci_driver_words[sizeof(UWORD) == 2 && sizeof(UBYTE) == 1 ? 1 : -1];

#define PCI_SUCCESSFUL 0
#define PCI_FUNC_NOT_SUPPORTED (-2)
#define PCI_BAD_VENDOR_ID (-3)
#define PCI_DEVICE_NOT_FOUND (-4)
#define PCI_BAD_REGISTER_NUMBER (-5)
#define PCI_SET_FAILED (-6)
#define PCI_BUFFER_TOO_SMALL (-7)
#define PCI_GENERAL_ERROR (-8)
#define PCI_BAD_HANDLE (-9)

/* The flags of a descriptor. */
#define RSC_IO 0x4000
#define RSC_LAST 0x8000
#define FLG_8BIT 0x0100
#define FLG_16BIT 0x0200
#define FLG_32BIT 0x0400
#define FLG_ENDMASK 0x000F

/* 20 bytes. The fields are numbers of this machine, as a driver reads them on the 68000; so is
   `next`, from here to the next descriptor. */
struct resource_descriptor {
    UWORD next, flags;
    ULONG start, length, offset, dmaoffset;
};

/* An interrupt handler and a call-back entry. Document 003 passes code as ULONG *, which C99 has
   no conversion for. */
typedef LONG pci_handler(LONG *value, LONG internal);
typedef LONG pci_callback(LONG function);

struct pci_board;

/* Makes a board the current one, with the cells that were lent to its load; NULL is the empty
   board, as at the start. The caller loads, resets and keeps it. Pointers that were kept for hooks
   and call-backs are forgotten: what the board has of them already is listed with NULL. */
void pci_use_board(struct pci_board *board, uint8_t *cells, size_t cells_length);

/* A handle, or PCI_DEVICE_NOT_FOUND. An ID has the device in bits 31..16, the vendor in 15..0. */
LONG find_pci_device(ULONG id, UWORD index);
LONG find_pci_classcode(ULONG classcode, UWORD index);

LONG read_config_byte(LONG handle, UBYTE reg, UBYTE *address);
LONG read_config_word(LONG handle, UBYTE reg, UWORD *address);
LONG read_config_longword(LONG handle, UBYTE reg, ULONG *address);

/* All ones where the read is refused. C has no carry flag; pci_fast_read_config tells a fault. */
UBYTE fast_read_config_byte(LONG handle, UBYTE reg);
UWORD fast_read_config_word(LONG handle, UBYTE reg);
ULONG fast_read_config_longword(LONG handle, UBYTE reg);

/* Status, the word at 06h, is not stored: a 1 clears a bit that can be cleared, a 0 leaves it. The
   longword at 04h has it in its upper half, so command is changed by the word at 04h. */
LONG write_config_byte(LONG handle, UBYTE reg, UBYTE val);
LONG write_config_word(LONG handle, UBYTE reg, UWORD val);
LONG write_config_longword(LONG handle, UBYTE reg, ULONG val);

/* The model calls no handler. The parameter is a ULONG * in document 003; any pointer to an
   object will do. */
LONG hook_interrupt(LONG handle, pci_handler *routine, void *parameter);
LONG unhook_interrupt(LONG handle);

/* Not of the BIOS: the hook with this index on a line's chain, from 0, as pci_list_chain gives
   it; NULL where refused. */
LONG pci_list_handlers(ULONG line, ULONG index, LONG *handle, pci_handler **routine,
                       void **parameter);

/* Not supported: always PCI_FUNC_NOT_SUPPORTED. The texts leave the parameters of the last
   two open. */
LONG special_cycle(UBYTE bus, ULONG data);
LONG get_routing(void);
LONG set_interrupt(void);

/* The address of the first descriptor, or an error, which is negative. Document 003 has a LONG,
   into which not every address fits; on a machine of 32 bits it must be below 2^31. The descriptors
   stay until the next call for the same handle. */
intptr_t get_resource(LONG handle);

/* The status 0 to 3 of a card or an error; the call-back entry where the status is 2, else NULL. */
LONG get_card_used(LONG handle, pci_callback **callback);

/* Sets status 2 with this call-back entry; one of these instead of it sets status 0, 1 or 3. */
#define PCI_CARD_FREE ((pci_callback *)0)
#define PCI_CARD_IN_USE ((pci_callback *)1)
#define PCI_CARD_TAKE_OVER ((pci_callback *)3)
LONG set_card_used(LONG handle, pci_callback *callback);

/* Addresses are those of the PCI bus. */
LONG read_mem_byte(LONG handle, ULONG address, UBYTE *data);
LONG read_mem_word(LONG handle, ULONG address, UWORD *data);
LONG read_mem_longword(LONG handle, ULONG address, ULONG *data);
LONG write_mem_byte(LONG handle, ULONG address, UBYTE data);
LONG write_mem_word(LONG handle, ULONG address, UWORD data);
LONG write_mem_longword(LONG handle, ULONG address, ULONG data);
LONG read_io_byte(LONG handle, ULONG address, UBYTE *data);
LONG read_io_word(LONG handle, ULONG address, UWORD *data);
LONG read_io_longword(LONG handle, ULONG address, ULONG *data);
LONG write_io_byte(LONG handle, ULONG address, UBYTE data);
LONG write_io_word(LONG handle, ULONG address, UWORD data);
LONG write_io_longword(LONG handle, ULONG address, ULONG data);

/* All ones where the read is refused. */
UBYTE fast_read_mem_byte(LONG handle, ULONG address);
UWORD fast_read_mem_word(LONG handle, ULONG address);
ULONG fast_read_mem_longword(LONG handle, ULONG address);
UBYTE fast_read_io_byte(LONG handle, ULONG address);
UWORD fast_read_io_word(LONG handle, ULONG address);
ULONG fast_read_io_longword(LONG handle, ULONG address);

/* The searches and data calls as draft 1.9 has them; all other calls are alike in both texts. An ID
   has the vendor in bits 31..16, the device in 15..0; vendor FFFFh is PCI_BAD_VENDOR_ID. Of a class
   code bits 31..24 play no part. Addresses are physical CPU addresses: a descriptor's `start` plus
   its `offset`. A write takes a pointer to its data, as a read does (document 000, 3.12). */
LONG draft_find_pci_device(ULONG id, UWORD index);
LONG draft_find_pci_classcode(ULONG classcode, UWORD index);
LONG draft_read_mem_byte(LONG handle, ULONG address, UBYTE *data);
LONG draft_read_mem_word(LONG handle, ULONG address, UWORD *data);
LONG draft_read_mem_longword(LONG handle, ULONG address, ULONG *data);
LONG draft_write_mem_byte(LONG handle, ULONG address, const UBYTE *data);
LONG draft_write_mem_word(LONG handle, ULONG address, const UWORD *data);
LONG draft_write_mem_longword(LONG handle, ULONG address, const ULONG *data);
LONG draft_read_io_byte(LONG handle, ULONG address, UBYTE *data);
LONG draft_read_io_word(LONG handle, ULONG address, UWORD *data);
LONG draft_read_io_longword(LONG handle, ULONG address, ULONG *data);
LONG draft_write_io_byte(LONG handle, ULONG address, const UBYTE *data);
LONG draft_write_io_word(LONG handle, ULONG address, const UWORD *data);
LONG draft_write_io_longword(LONG handle, ULONG address, const ULONG *data);

/* The draft has no fast data reads; with its addresses these go with its other calls. */
UBYTE draft_fast_read_mem_byte(LONG handle, ULONG address);
UWORD draft_fast_read_mem_word(LONG handle, ULONG address);
ULONG draft_fast_read_mem_longword(LONG handle, ULONG address);
UBYTE draft_fast_read_io_byte(LONG handle, ULONG address);
UWORD draft_fast_read_io_word(LONG handle, ULONG address);
ULONG draft_fast_read_io_longword(LONG handle, ULONG address);

/* Without parameters, so that a function's address can be taken by these names too. */
#if PCI_DRIVER_EDITION == 1
#define find_pci_device draft_find_pci_device
#define find_pci_classcode draft_find_pci_classcode
#define read_mem_byte draft_read_mem_byte
#define read_mem_word draft_read_mem_word
#define read_mem_longword draft_read_mem_longword
#define write_mem_byte draft_write_mem_byte
#define write_mem_word draft_write_mem_word
#define write_mem_longword draft_write_mem_longword
#define read_io_byte draft_read_io_byte
#define read_io_word draft_read_io_word
#define read_io_longword draft_read_io_longword
#define write_io_byte draft_write_io_byte
#define write_io_word draft_write_io_word
#define write_io_longword draft_write_io_longword
#define fast_read_mem_byte draft_fast_read_mem_byte
#define fast_read_mem_word draft_fast_read_mem_word
#define fast_read_mem_longword draft_fast_read_mem_longword
#define fast_read_io_byte draft_fast_read_io_byte
#define fast_read_io_word draft_fast_read_io_word
#define fast_read_io_longword draft_fast_read_io_longword
#endif

#endif
