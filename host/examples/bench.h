/* What the benches of sizers share: the board on standard input, the handlers of the cards' line,
   bins as they are printed, a run that is recorded where a file is named for it. Functions of a
   header, so that an example is compiled from its own sources and the host's. */
#ifndef BENCH_H
#define BENCH_H

#include <inttypes.h>
#include <stdio.h>
#include "pci_bios.h"
#include "pci_trace.h"
#include "sizer.h"

#define LINE 5

/* Loads the board and makes it the current one: 0, or 1 where the image is refused. */
static int load_board(struct pci_board *board, uint8_t *cells, size_t cells_length) {
    static uint8_t image[65537];
    uint32_t place;
    size_t length = fread(image, 1, sizeof image, stdin);
    if (pci_load(board, cells, cells_length, image, length, &place) != 0)
        return 1;
    pci_use_board(board, cells, cells_length);
    return 0;
}

/* What the machine does on an interrupt: it calls the handlers of the line, one after the other. */
static void interrupt(void) {
    LONG handle, internal = 0;
    pci_handler *routine;
    void *parameter;
    for (ULONG index = 0; pci_list_handlers(LINE, index, &handle, &routine, &parameter) == 0;
         index++)
        internal = routine(parameter, internal);
}

static void show_line(void) {
    LONG handle;
    pci_handler *routine;
    void *parameter;
    printf("line %d calls", LINE);
    for (ULONG index = 0; pci_list_handlers(LINE, index, &handle, &routine, &parameter) == 0;
         index++)
        printf("%s handle %" PRId32, index == 0 ? "" : ",", handle);
    printf("\n");
}

/* The samples in a bin, as the driver of a card reads them: 0, or the error of the BIOS. */
typedef LONG read_bin(const void *card, ULONG bin, ULONG *samples);

/* Reads all bins of a card and prints those that have samples: 0, or -1 where a read is refused. */
static int read_bins(const char *name, read_bin *read, const void *card, ULONG *bins) {
    int shown = 0;
    printf("%s:", name);
    for (ULONG bin = 0; bin < SIZER_BINS; bin++) {
        if (read(card, bin, &bins[bin]) != PCI_SUCCESSFUL)
            return -1;
        if (bins[bin] != 0)
            printf("%s bin %" PRIu32 " %" PRIu32, shown++ == 0 ? "" : ",", bin, bins[bin]);
    }
    printf("\n");
    return 0;
}

/* Runs, with a trace of all calls on the board to the file that the argument names, where there
   is one; gives the program's status. */
static int run_recorded(int argc, char **argv, int (*run)(void), const struct pci_board *board,
                        const uint8_t *cells, size_t cells_length) {
    static struct pci_trace trace;
    FILE *calls = argc > 1 ? fopen(argv[1], "wb") : NULL;
    if (argc > 1 &&
        (calls == NULL || pci_trace_start(&trace, board, cells, cells_length, calls, NULL) != 0))
        return fprintf(stderr, "%s: no trace can be written\n", argv[1]), 1;
    int status = run();
    if (calls != NULL && (pci_trace_end(&trace) != 0 || fclose(calls) != 0))
        return fprintf(stderr, "%s: the trace is not complete\n", argv[1]), 1;
    return status;
}

#endif
