/* Traces of the calls on a board, which `replay` prints and bios_run_script performs again:
   docs/TRACE.md. Link pci_trace.c beside what pci_bios.h names. */
#ifndef PCI_TRACE_H
#define PCI_TRACE_H

#include <stdio.h>
#include "pci_bios.h"

/* A trace belongs to the caller, who reads and writes none of it. It need not be cleared before
   the start. Board, cells and streams stay where they are until its end; a copy of the board is
   another board. */
struct pci_trace {
    struct pci_trace *next;
    const struct pci_board *board;
    const uint8_t *cells;
    size_t cells_length;
    FILE *calls, *answers;
    int complete;
    int in_call;
    const void *own;
    size_t own_length;
};

/* Starts to record: 0, or -1 where the trace is started already, the board is traced already or is
   not all zero, or the stream takes nothing. From then on every call on the board, by pci_bios.h or
   pci_driver.h, is written to `calls` before it is made, and where `answers` is not NULL its answer
   there, as bios_run_script leaves it in the script. Calls that have no board (special cycle, get
   routing, set interrupt) are written to all traces. No call gives another answer for it, nor
   another errno. Each call that takes cells must lend these very ones: the first that does not is
   not recorded, nor is any call after it; the same goes for a stream that takes no more. */
int pci_trace_start(struct pci_trace *trace, const struct pci_board *board, const uint8_t *cells,
                    size_t cells_length, FILE *calls, FILE *answers);

/* Ends it and flushes the streams, which stay open: 0 where every call since the start was
   recorded, else -1; also for a trace that is not started, which is left as it is. */
int pci_trace_end(struct pci_trace *trace);

/* Threads: start and end a trace while no other thread is in a call, on any board. A board that is
   traced is for one thread at a time, even for calls that only read it; as a call that has no board
   writes to every trace, it is made while no other thread is in a call on a traced board. Boards
   that are not traced are as free as they are without traces. With no trace started a call costs
   two tests of a pointer. */

#endif
