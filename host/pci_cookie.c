/* The structure of pci_cookie.h: draft 1.9's functions of pci_driver.h, and the entries that the
   model has nothing for. */
#include "pci_cookie.h"

LONG get_machine_id(void) {
    return PCI_FUNC_NOT_SUPPORTED;
}

ULONG virt_to_bus(LONG handle, ULONG address, ULONG *bus) {
    (void)handle;
    (void)address;
    *bus = 0;
    return 0;
}

ULONG bus_to_virt(LONG handle, ULONG address, ULONG *virtual_address) {
    (void)handle;
    (void)address;
    *virtual_address = 0;
    return 0;
}

/* In the order of the structure. Constant: the draft has it in ROM. */
static const struct pci_entry_points entry_points = {
    NULL,
    PCI_COOKIE_VERSION,
    draft_find_pci_device,
    draft_find_pci_classcode,
    read_config_byte,
    read_config_word,
    read_config_longword,
    fast_read_config_byte,
    fast_read_config_word,
    fast_read_config_longword,
    write_config_byte,
    write_config_word,
    write_config_longword,
    hook_interrupt,
    unhook_interrupt,
    special_cycle,
    get_routing,
    set_interrupt,
    get_resource,
    get_card_used,
    set_card_used,
    draft_read_mem_byte,
    draft_read_mem_word,
    draft_read_mem_longword,
    draft_write_mem_byte,
    draft_write_mem_word,
    draft_write_mem_longword,
    draft_read_io_byte,
    draft_read_io_word,
    draft_read_io_longword,
    draft_write_io_byte,
    draft_write_io_word,
    draft_write_io_longword,
    get_machine_id,
    virt_to_bus,
    bus_to_virt,
};

const void *pci_find_cookie(ULONG name) {
    return name == PCI_COOKIE ? &entry_points : NULL;
}
