/* A driver for the particle sizer: a card that keeps 256 bins of one longword each in its
   memory window. */
#ifndef SIZER_H
#define SIZER_H

#include "pci_driver.h"

#define SIZER_ID 0x00010F0F
#define SIZER_BINS 256
#define SIZER_NO_SAMPLE (-1)

struct sizer {
    LONG handle;
    ULONG bins;  /* where bin 0 is on the bus */
    LONG sample; /* the bin of a sample that waits to be counted */
    LONG answer; /* of the last sample counted */
};

/* Takes the card with this index: 0, or the error of the BIOS. */
LONG sizer_open(struct sizer *card, UWORD index);

/* Gives it back. */
LONG sizer_close(struct sizer *card);

/* The samples in a bin: 0, or the error of the BIOS. */
LONG sizer_read(const struct sizer *card, ULONG bin, ULONG *samples);

#endif
