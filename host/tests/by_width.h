/* The data calls of pci_driver.h by space and width: what they are handed and give back is alike in
   both editions, so that one test is of both. */
#ifndef BY_WIDTH_H
#define BY_WIDTH_H

#include "pci_driver.h"

struct data_calls {
    LONG (*read)(int io, unsigned width, LONG handle, ULONG address, ULONG *value);
    ULONG (*fast_read)(int io, unsigned width, LONG handle, ULONG address);
    LONG (*write)(int io, unsigned width, LONG handle, ULONG address, ULONG value);
};

extern const struct data_calls draft_calls, later_calls;

#endif
