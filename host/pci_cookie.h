/* What a driver of draft 1.9 finds in memory: the structure of entry points to which the "_PCI"
   cookie leads (document 000, 2.4). Link pci_cookie.c and what pci_driver.h names. */
#ifndef PCI_COOKIE_H
#define PCI_COOKIE_H

#include "pci_driver.h"

/* In the draft's order, with its names and meaning, whatever PCI_DRIVER_EDITION says: IDs have the
   vendor in bits 31..16, data addresses are the CPU's, writes take pointers. With edition 1 the
   names of pci_driver.h are macros, here and where a member is used alike. */
struct pci_entry_points {
    const void *sub_cookie_jar; /* NULL: there is none */
    ULONG version;              /* of this structure */
    LONG (*find_pci_device)(ULONG id, UWORD index);
    LONG (*find_pci_classcode)(ULONG classcode, UWORD index);
    LONG (*read_config_byte)(LONG handle, UBYTE reg, UBYTE *address);
    LONG (*read_config_word)(LONG handle, UBYTE reg, UWORD *address);
    LONG (*read_config_longword)(LONG handle, UBYTE reg, ULONG *address);
    UBYTE (*fast_read_config_byte)(LONG handle, UBYTE reg);
    UWORD (*fast_read_config_word)(LONG handle, UBYTE reg);
    ULONG (*fast_read_config_longword)(LONG handle, UBYTE reg);
    LONG (*write_config_byte)(LONG handle, UBYTE reg, UBYTE val);
    LONG (*write_config_word)(LONG handle, UBYTE reg, UWORD val);
    LONG (*write_config_longword)(LONG handle, UBYTE reg, ULONG val);
    LONG (*hook_interrupt)(LONG handle, pci_handler *routine, void *parameter);
    LONG (*unhook_interrupt)(LONG handle);
    LONG (*special_cycle)(UBYTE bus, ULONG data);
    LONG (*get_routing)(void);
    LONG (*set_interrupt)(void);
    intptr_t (*get_resource)(LONG handle);
    LONG (*get_card_used)(LONG handle, pci_callback **callback);
    LONG (*set_card_used)(LONG handle, pci_callback *callback);
    LONG (*read_mem_byte)(LONG handle, ULONG address, UBYTE *data);
    LONG (*read_mem_word)(LONG handle, ULONG address, UWORD *data);
    LONG (*read_mem_longword)(LONG handle, ULONG address, ULONG *data);
    LONG (*write_mem_byte)(LONG handle, ULONG address, const UBYTE *data);
    LONG (*write_mem_word)(LONG handle, ULONG address, const UWORD *data);
    LONG (*write_mem_longword)(LONG handle, ULONG address, const ULONG *data);
    LONG (*read_io_byte)(LONG handle, ULONG address, UBYTE *data);
    LONG (*read_io_word)(LONG handle, ULONG address, UWORD *data);
    LONG (*read_io_longword)(LONG handle, ULONG address, ULONG *data);
    LONG (*write_io_byte)(LONG handle, ULONG address, const UBYTE *data);
    LONG (*write_io_word)(LONG handle, ULONG address, const UWORD *data);
    LONG (*write_io_longword)(LONG handle, ULONG address, const ULONG *data);
    LONG (*get_machine_id)(void);
    ULONG (*virt_to_bus)(LONG handle, ULONG address, ULONG *bus);
    ULONG (*bus_to_virt)(LONG handle, ULONG address, ULONG *virtual_address);
};

/* "_PCI" in four bytes, as a cookie jar has its names. */
#define PCI_COOKIE 0x5F504349u

/* The version of struct pci_entry_points. */
#define PCI_COOKIE_VERSION 1

/* What the cookie of this name leads to: a const struct pci_entry_points for PCI_COOKIE, NULL for
   every other name. Untyped, as a cookie's value is. */
const void *pci_find_cookie(ULONG name);

/* The entries that the model has nothing for. There is no machine ID: PCI_FUNC_NOT_SUPPORTED. */
LONG get_machine_id(void);

/* The length of a mapped area, and its address where the pointer says. No memory is mapped to the
   bus: both are 0, also for a bad handle, as the draft has no error for it. */
ULONG virt_to_bus(LONG handle, ULONG address, ULONG *bus);
ULONG bus_to_virt(LONG handle, ULONG address, ULONG *virtual_address);

#endif
