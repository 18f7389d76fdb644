/* A trace that is read back and performed again by bios_run_script. */
#ifndef RERUN_H
#define RERUN_H

#include <stdio.h>
#include "pci_bios.h"

struct rerun {
    uint8_t script[1 << 19];  /* as it was recorded */
    uint8_t answers[1 << 19]; /* the script as its run left it */
    size_t length, stop;      /* of both; where the run stopped */
    struct pci_board board;
    uint8_t cells[65536];
    size_t cells_length;
};

/* All bytes of a stream, from its beginning. */
size_t read_all(FILE *stream, uint8_t *bytes, size_t room);

/* Reads a trace: 1, or 0 where the stream has none of format 1. */
int rerun_read(struct rerun *run, FILE *stream);

/* Performs it. The lent parts are not cleared before: a run does that. */
void rerun_perform(struct rerun *run);

/* How many calls of an operation were accepted, or were refused; operation 0 means all. */
size_t rerun_count(const struct rerun *run, unsigned operation, unsigned refused);

/* How many calls have this third argument, which says an edition. */
size_t rerun_editions(const struct rerun *run, uint32_t c);

#endif
