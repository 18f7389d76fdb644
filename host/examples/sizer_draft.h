/* The sizer's older driver, written to draft 1.9: as sizer.h, with the entry points that the "_PCI"
   cookie leads to. */
#ifndef SIZER_DRAFT_H
#define SIZER_DRAFT_H

#include "pci_cookie.h"

#define SIZER_DRAFT_ID 0x0F0F0001
#define SIZER_DRAFT_BINS 256
#define SIZER_DRAFT_NO_SAMPLE (-1)

struct sizer_draft {
    LONG handle;
    ULONG bins;  /* where the CPU sees bin 0 */
    LONG sample; /* the bin of a sample that waits to be counted */
    LONG answer; /* of the last sample counted */
};

/* Takes the card with this index: 0, or the error of the BIOS; -2 also where there is no cookie, or
   one of another version. */
LONG sizer_draft_open(struct sizer_draft *card, UWORD index);

/* Gives it back. */
LONG sizer_draft_close(struct sizer_draft *card);

/* The samples in a bin: 0, or the error of the BIOS. */
LONG sizer_draft_read(const struct sizer_draft *card, ULONG bin, ULONG *samples);

#endif
