/* What pci_bios.c tells a recorder of each call. Callers use pci_trace.h, whose recorder is
   the only one. */
#ifndef PCI_RECORD_H
#define PCI_RECORD_H

#include "pci_bios.h"

/* The operations of docs/SCRIPT.md. */
enum pci_operation {
    OP_LOAD = 1,
    OP_RESET,
    OP_WRITE_IMAGE,
    OP_FIND_PCI_DEVICE,
    OP_FIND_PCI_CLASSCODE,
    OP_READ_CONFIG,
    OP_FAST_READ_CONFIG,
    OP_WRITE_CONFIG,
    OP_READ_DATA,
    OP_FAST_READ_DATA,
    OP_WRITE_DATA,
    OP_BUS_TO_CPU,
    OP_CPU_TO_BUS,
    OP_LIST_WINDOW,
    OP_GET_RESOURCE,
    OP_HOOK_INTERRUPT,
    OP_UNHOOK_INTERRUPT,
    OP_LIST_CHAIN,
    OP_GET_CARD_USED,
    OP_SET_CARD_USED,
    OP_SPECIAL_CYCLE,
    OP_GET_ROUTING,
    OP_SET_INTERRUPT
};

/* Memory that is lent to a call. */
struct pci_lent {
    const void *start;
    size_t length;
};

/* The fields of a call's header in a script, and what is lent. What a call does not have is 0. */
struct pci_call {
    const struct pci_board *board; /* NULL for the calls that have none */
    enum pci_operation operation;
    unsigned width;
    int io; /* any number but 0 for I/O */
    uint8_t reg;
    uint32_t handle, a, b;
    uint32_t c;                   /* the edition, with 0 and 2 exchanged */
    struct pci_lent own;          /* its own buffer */
    const struct pci_lent *cells; /* NULL for the calls that take none */
};

/* The fields of an answer. */
struct pci_answer {
    int32_t number;
    int refused;
    uint64_t values[6];
};

/* Called before and after the library is; `own` still has the address that was lent then. */
struct pci_recorder {
    void (*call)(const struct pci_call *call);
    void (*answer)(const struct pci_board *board, const struct pci_answer *answer);
};

/* NULL where nothing is recorded. */
extern const struct pci_recorder *pci_recorder;

#endif
