/* The recorder of pci_trace.h: arguments and answers are written down as docs/TRACE.md has them. */
#include <errno.h>
#include "pci_record.h"
#include "pci_trace.h"

/* What a call can reach: no window's cell lies further, and a longer image is refused for
   its length alone. */
#define CELLS_KEPT 65536
#define OWN_KEPT 65537

#define HEADER_BYTES 64

static struct pci_trace *started;

static void put_big(uint8_t *at, unsigned width, uint64_t value) {
    for (unsigned i = 0; i < width; i++)
        at[i] = (uint8_t)(value >> 8 * (width - 1 - i));
}

static size_t at_most(size_t most, size_t length) {
    return length < most ? length : most;
}

/* A header and the bytes after it: 1 where the stream took both. */
static int put(FILE *stream, const uint8_t *header, size_t header_length, const void *bytes,
               size_t length) {
    return fwrite(header, 1, header_length, stream) == header_length &&
           (length == 0 || fwrite(bytes, 1, length, stream) == length);
}

static int put_start(FILE *stream, const uint8_t *cells, size_t length) {
    uint8_t header[12] = {'P', 'C', 'I', 'T'};
    put_big(header + 4, 4, 1);
    put_big(header + 8, 4, length);
    return put(stream, header, sizeof header, cells, length);
}

static int put_call(FILE *stream, const struct pci_call *call, size_t own_length) {
    uint8_t header[HEADER_BYTES] = {(uint8_t)call->operation, (uint8_t)call->width, call->io != 0,
                                    call->reg};
    put_big(header + 4, 4, call->handle);
    put_big(header + 8, 4, call->a);
    put_big(header + 12, 4, call->b);
    put_big(header + 16, 4, call->c);
    put_big(header + 60, 4, own_length);
    return put(stream, header, sizeof header, call->own.start, own_length);
}

static int put_answer(FILE *stream, const struct pci_answer *answer, const void *own,
                      size_t own_length) {
    uint8_t header[HEADER_BYTES] = {0};
    put_big(header, 4, (uint32_t)answer->number);
    header[4] = answer->refused != 0;
    for (size_t i = 0; i < 6; i++)
        put_big(header + 8 + 8 * i, 8, answer->values[i]);
    put_big(header + 60, 4, own_length);
    return put(stream, header, sizeof header, own, own_length);
}

/* A script can say no other width; with one a call is refused whatever the board and is
   no call of a run. */
static int in_script(const struct pci_call *call) {
    int has_width = OP_READ_CONFIG <= call->operation && call->operation <= OP_WRITE_DATA;
    return !has_width || call->width == 1 || call->width == 2 || call->width == 4;
}

/* Whether a call lends the trace's cells, if any; all empty buffers are the same. */
static int same_cells(const struct pci_trace *trace, const struct pci_lent *cells) {
    return cells == NULL || (cells->length == trace->cells_length &&
                             (cells->length == 0 || cells->start == trace->cells));
}

static void record_call(struct pci_trace *trace, const struct pci_call *call) {
    if (!trace->complete || !in_script(call))
        return;
    trace->own = call->own.start;
    trace->own_length = at_most(OWN_KEPT, call->own.length);
    trace->complete =
        same_cells(trace, call->cells) && put_call(trace->calls, call, trace->own_length);
    trace->in_call = trace->complete;
}

static void record_answer(struct pci_trace *trace, const struct pci_answer *answer) {
    if (trace->in_call && trace->answers != NULL)
        trace->complete = put_answer(trace->answers, answer, trace->own, trace->own_length);
    trace->in_call = 0;
}

static int is_of(const struct pci_trace *trace, const struct pci_board *board) {
    return board == NULL || trace->board == board;
}

static void on_call(const struct pci_call *call) {
    int kept = errno;
    for (struct pci_trace *trace = started; trace != NULL; trace = trace->next)
        if (is_of(trace, call->board))
            record_call(trace, call);
    errno = kept;
}

static void on_answer(const struct pci_board *board, const struct pci_answer *answer) {
    int kept = errno;
    for (struct pci_trace *trace = started; trace != NULL; trace = trace->next)
        if (is_of(trace, board))
            record_answer(trace, answer);
    errno = kept;
}

static const struct pci_recorder recorder = {on_call, on_answer};

/* Only the parts count: after the last one there may be bytes that belong to none. */
static int all_zero(const struct pci_board *board) {
    const uint8_t *bytes = (const uint8_t *)board;
    for (size_t i = 0; i < offsetof(struct pci_board, used) + sizeof board->used; i++)
        if (bytes[i] != 0)
            return 0;
    return 1;
}

static int taken(const struct pci_trace *trace, const struct pci_board *board) {
    for (const struct pci_trace *other = started; other != NULL; other = other->next)
        if (other == trace || other->board == board)
            return 1;
    return 0;
}

int pci_trace_start(struct pci_trace *trace, const struct pci_board *board, const uint8_t *cells,
                    size_t cells_length, FILE *calls, FILE *answers) {
    if (taken(trace, board) || !all_zero(board) ||
        !put_start(calls, cells, at_most(CELLS_KEPT, cells_length)))
        return -1;
    *trace = (struct pci_trace){.next = started,
                                .board = board,
                                .cells = cells,
                                .cells_length = cells_length,
                                .calls = calls,
                                .answers = answers,
                                .complete = 1};
    started = trace;
    pci_recorder = &recorder;
    return 0;
}

int pci_trace_end(struct pci_trace *trace) {
    struct pci_trace **at = &started;
    while (*at != NULL && *at != trace)
        at = &(*at)->next;
    if (*at == NULL)
        return -1;
    *at = trace->next;
    pci_recorder = started == NULL ? NULL : &recorder;
    int flushed = fflush(trace->calls) == 0;
    if (trace->answers != NULL)
        flushed &= fflush(trace->answers) == 0;
    return trace->complete && flushed ? 0 : -1;
}
