/* The calls of by_width.h in the edition that this source is compiled with. Its names are the
   drivers', so by_width_draft.c is the same source. */
#include "by_width.h"

#if PCI_DRIVER_EDITION == 1
#define CALLS draft_calls
#define HANDED(variable) (&variable)
#else
#define CALLS later_calls
#define HANDED(variable) (variable)
#endif

static LONG read_value(int io, unsigned width, LONG handle, ULONG address, ULONG *value) {
    UBYTE byte = 0xEE;
    UWORD word = 0xEEEE;
    LONG number;
    if (width == 4)
        return (io ? read_io_longword : read_mem_longword)(handle, address, value);
    if (width == 2) {
        number = (io ? read_io_word : read_mem_word)(handle, address, &word);
        *value = word;
    } else {
        number = (io ? read_io_byte : read_mem_byte)(handle, address, &byte);
        *value = byte;
    }
    return number;
}

static ULONG fast_read_value(int io, unsigned width, LONG handle, ULONG address) {
    if (width == 4)
        return (io ? fast_read_io_longword : fast_read_mem_longword)(handle, address);
    if (width == 2)
        return (io ? fast_read_io_word : fast_read_mem_word)(handle, address);
    return (io ? fast_read_io_byte : fast_read_mem_byte)(handle, address);
}

static LONG write_value(int io, unsigned width, LONG handle, ULONG address, ULONG value) {
    UBYTE byte = (UBYTE)value;
    UWORD word = (UWORD)value;
    if (width == 4)
        return (io ? write_io_longword : write_mem_longword)(handle, address, HANDED(value));
    if (width == 2)
        return (io ? write_io_word : write_mem_word)(handle, address, HANDED(word));
    return (io ? write_io_byte : write_mem_byte)(handle, address, HANDED(byte));
}

const struct data_calls CALLS = {read_value, fast_read_value, write_value};
