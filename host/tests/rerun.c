/* The reader of traces for the tests; it follows docs/TRACE.md and docs/SCRIPT.md and shares
   nothing with pci_trace.c. */
#include <string.h>
#include "bios_library.h"
#include "rerun.h"

static size_t long_at(const uint8_t *bytes) {
    return (size_t)bytes[0] << 24 | (size_t)bytes[1] << 16 | (size_t)bytes[2] << 8 | bytes[3];
}

size_t read_all(FILE *stream, uint8_t *bytes, size_t room) {
    rewind(stream);
    return fread(bytes, 1, room, stream);
}

int rerun_read(struct rerun *run, FILE *stream) {
    static const uint8_t wanted[8] = {0x50, 0x43, 0x49, 0x54, 0, 0, 0, 1};
    uint8_t head[12];
    if (read_all(stream, head, sizeof head) != sizeof head ||
        memcmp(head, wanted, sizeof wanted) != 0)
        return 0;
    run->cells_length = long_at(head + 8);
    if (run->cells_length > sizeof run->cells ||
        fread(run->cells, 1, run->cells_length, stream) != run->cells_length)
        return 0;
    run->length = fread(run->script, 1, sizeof run->script, stream);
    return feof(stream) != 0;
}

void rerun_perform(struct rerun *run) {
    struct pci_board *b = &run->board;
    memcpy(run->answers, run->script, run->length);
    run->stop =
        bios_run_script(run->answers, run->length, b->header, b->records, b->registers, b->windows,
                        b->cell_offsets, b->hooks, b->used, run->cells, run->cells_length);
}

size_t rerun_count(const struct rerun *run, unsigned operation, unsigned refused) {
    size_t count = 0;
    for (size_t at = 0; at < run->stop; at += 64 + long_at(run->script + at + 60))
        count +=
            (operation == 0 || run->script[at] == operation) && run->answers[at + 4] == refused;
    return count;
}

size_t rerun_editions(const struct rerun *run, uint32_t c) {
    size_t count = 0;
    for (size_t at = 0; at < run->stop; at += 64 + long_at(run->script + at + 60))
        count += long_at(run->script + at + 16) == c;
    return count;
}
