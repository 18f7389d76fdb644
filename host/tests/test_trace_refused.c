/* Traces that are refused or stay incomplete, and the traces of the examples. */
#include <errno.h>
#include <string.h>
#include "check.h"
#include "pci_record.h"
#include "pci_trace.h"
#include "rerun.h"

static struct pci_trace trace, other;
static struct rerun rerun;
static FILE *calls, *answers;
static uint8_t more_cells[2064], answered[4096];
static uint32_t value, place;

static void clear(void) {
    memset(&board, 0, sizeof board);
    memset(cells, 0, sizeof cells);
}

static FILE *full_stream(int mode) {
    FILE *stream = fopen("/dev/full", "w");
    GIVES(1, stream != NULL && setvbuf(stream, NULL, mode, BUFSIZ) == 0);
    return stream;
}

/* The run of all tests here: three calls, each as it is without a trace. */
static void make_calls(void) {
    GIVES(0, pci_load(&board, cells, 2064, image, sizeof image, &place));
    GIVES(0, pci_write_data(&board, cells, 2064, 0, 4, 2, 0x80000400, 0x11223344, LATER));
    GIVES(0, pci_read_data(&board, cells, 2064, 0, 2, 2, 0x80000400, LATER, &value));
    GIVES(0x3344, value);
}

/* The calls that a stream has, all of them whole. */
static size_t calls_in(FILE *stream) {
    GIVES(1, rerun_read(&rerun, stream));
    rerun_perform(&rerun);
    GIVES((int64_t)rerun.length, rerun.stop);
    return rerun_count(&rerun, 0, 0) + rerun_count(&rerun, 0, 1);
}

/* A number in any part of the board; what may stand behind the last part is none. */
static void test_used_boards(void) {
    FILE *stream = tmpfile();
    clear();
    void *const parts[] = {
        board.header,       board.records, board.registers, board.windows,
        board.cell_offsets, board.hooks,   board.used,      (uint8_t *)(&board.used + 1) - 1};
    for (size_t i = 0; i < sizeof parts / sizeof parts[0]; i++) {
        *(uint8_t *)parts[i] = 1;
        GIVES(-1, pci_trace_start(&trace, &board, cells, 2064, stream, NULL));
        *(uint8_t *)parts[i] = 0;
    }
    memset(&board, 0xFF, sizeof board);
    memset(&board, 0, offsetof(struct pci_board, used) + sizeof board.used);
    GIVES(0, pci_trace_start(&trace, &board, cells, 2064, stream, NULL));
    GIVES(0, pci_trace_end(&trace));
    make_calls();
    GIVES(0, calls_in(stream));
    fclose(stream);
}

static void test_twice(void) {
    static struct pci_board another;
    FILE *stream = tmpfile(), *unused = tmpfile();
    clear();
    GIVES(-1, pci_trace_end(&trace));
    GIVES(0, pci_trace_start(&trace, &board, cells, 2064, stream, NULL));
    GIVES(-1, pci_trace_start(&trace, &another, cells, 2064, unused, NULL));
    GIVES(-1, pci_trace_start(&other, &board, cells, 2064, unused, NULL));
    GIVES(-1, pci_trace_end(&other));
    make_calls();
    GIVES(0, pci_recorder == NULL);
    GIVES(0, pci_trace_end(&trace));
    GIVES(1, pci_recorder == NULL);
    GIVES(-1, pci_trace_end(&trace));
    GIVES(3, calls_in(stream));
    GIVES(0, ftell(unused));
    fclose(stream);
    fclose(unused);
}

static void record_calls(void) {
    calls = tmpfile();
    answers = tmpfile();
    clear();
    GIVES(0, pci_trace_start(&trace, &board, cells, 2064, calls, answers));
    make_calls();
}

/* The streams have the three calls and no more. */
static void check_recorded(void) {
    GIVES(3, calls_in(calls));
    GIVES((int64_t)rerun.length, read_all(answers, answered, sizeof answered));
    GIVES(0, memcmp(rerun.answers, answered, rerun.length));
    fclose(calls);
    fclose(answers);
}

/* After other cells were lent nothing is recorded, not even a call that lends the trace's own. */
static void check_stopped(void) {
    GIVES(0, pci_write_data(&board, cells, 2064, 0, 4, 2, 0x80000400, 0x55667788, LATER));
    GIVES(-1, pci_trace_end(&trace));
    check_recorded();
}

/* By address or by length; the call gives what it gives without a trace. */
static void test_other_cells(void) {
    int fault;
    record_calls();
    GIVES(0, pci_load(&board, more_cells, 2064, image, sizeof image, &place));
    check_stopped();
    record_calls();
    GIVES(1, pci_load(&board, cells, 2065, image, 5, &place));
    check_stopped();
    record_calls();
    GIVES(-7, pci_reset(&board, NULL, 0));
    check_stopped();
    record_calls();
    GIVES(0, pci_read_data(&board, more_cells, 2064, 0, 4, 2, 0x80000400, LATER, &value));
    GIVES(0, value);
    check_stopped();
    record_calls();
    GIVES(0xFFFFFFFF, pci_fast_read_data(&board, cells, 2063, 0, 4, 2, 0x80000400, LATER, &fault));
    check_stopped();
    record_calls();
    GIVES(0, pci_write_data(&board, cells, sizeof cells, 0, 4, 2, 0x80000400, 1, LATER));
    check_stopped();
    record_calls();
    GIVES(-2, pci_write_data(&board, cells, 2063, 0, 4, 2, 0x80000400, 1, 3));
    check_stopped();
}

/* Calls without a board or of no width are no calls of a run, whatever cells they are lent. */
static void test_not_recorded(void) {
    struct pci_descriptor descriptor;
    size_t following;
    record_calls();
    GIVES(0, pci_check_image(image, sizeof image, &place));
    GIVES(0, pci_descriptor_step(NULL, 0, 0, &descriptor, &following));
    GIVES(-8, pci_write_data(&board, more_cells, 9, 0, 3, 2, 0x80000400, 1, LATER));
    GIVES(-2, pci_write_data(&board, more_cells, 9, 0, 3, 2, 0x80000400, 1, 3));
    GIVES(0, pci_trace_end(&trace));
    check_recorded();
}

static void test_failing_start(void) {
    FILE *full = full_stream(_IONBF), *unwritable = fopen("/dev/null", "r");
    clear();
    GIVES(-1, pci_trace_start(&trace, &board, cells, 2064, full, NULL));
    GIVES(-1, pci_trace_start(&trace, &board, cells, 0, unwritable, NULL));
    GIVES(-1, pci_trace_end(&trace));
    GIVES(1, pci_recorder == NULL);
    fclose(full);
    fclose(unwritable);
}

/* A stream that fails in a call: its answer and errno are as they are without a trace. The image of
   16 functions is longer than the stream's buffer. */
static void test_failing_call(void) {
    FILE *full = full_stream(_IOFBF), *none = full_stream(_IONBF), *stream = tmpfile();
    clear();
    GIVES(0, pci_trace_start(&trace, &board, cells, 0, full, NULL));
    errno = EDOM;
    GIVES(8, pci_load(&board, NULL, 0, sixteen, sizeof sixteen, &place));
    GIVES(EDOM, errno);
    GIVES(-9, pci_read_config(&board, 4, 1, 0, &value));
    GIVES(-1, pci_trace_end(&trace));
    GIVES(0, pci_trace_start(&trace, &board, cells, 2064, stream, none));
    errno = EDOM;
    make_calls();
    GIVES(EDOM, errno);
    GIVES(-1, pci_trace_end(&trace));
    GIVES(1, calls_in(stream));
    fclose(full);
    fclose(none);
    fclose(stream);
}

/* A stream that fails when its buffer is flushed at the end. */
static void test_failing_end(void) {
    FILE *full = full_stream(_IOFBF), *stream = tmpfile();
    clear();
    GIVES(0, pci_trace_start(&trace, &board, cells, 0, full, NULL));
    GIVES(-1, pci_trace_end(&trace));
    GIVES(0, pci_trace_start(&trace, &board, cells, 0, stream, full));
    GIVES(-9, pci_read_config(&board, 4, 1, 0, &value));
    GIVES(-1, pci_trace_end(&trace));
    fclose(full);
    fclose(stream);
}

void test_trace_refused(void) {
    test_used_boards();
    test_twice();
    test_other_cells();
    test_not_recorded();
    test_failing_start();
    test_failing_call();
    test_failing_end();
}

/* Performs the trace in a file again. */
static int perform_file(const char *path, size_t cells_length) {
    FILE *stream = fopen(path, "rb");
    GIVES(1, stream != NULL);
    if (stream == NULL)
        return 0;
    calls_in(stream);
    GIVES((int64_t)cells_length, rerun.cells_length);
    fclose(stream);
    return 1;
}

/* Four cells after a run. */
static void check_cells(size_t at, const uint8_t *wanted) {
    GIVES(0, memcmp(rerun.cells + at, wanted, 4));
}

/* The stray sample's fast read and write are refused, and the listings of the line past its two
   hooks, one for each interrupt and one for the list of handlers; the bins are in the cells as the
   example printed them. */
void test_incident(const char *path) {
    if (!perform_file(path, 2064))
        return;
    GIVES(1, rerun_count(&rerun, 10, 1));
    GIVES(1, rerun_count(&rerun, 11, 1));
    GIVES(6, rerun_count(&rerun, 18, 1));
    GIVES(8, rerun_count(&rerun, 0, 1));
    GIVES(4 * 256, rerun_count(&rerun, 9, 0));
    GIVES(0, rerun_editions(&rerun, 1));
    check_cells(4 * 17, (const uint8_t[4]){0, 0, 0, 1});
    check_cells(4 * 255, (const uint8_t[4]){0, 0, 0, 1});
    check_cells(1024, (const uint8_t[4]){0, 0, 0, 2});
}

/* Both drivers meet the stray bin: the old one's read and write are refused, the new one's fast
   read and write; so are the listings past two hooks, at eight interrupts and two lists. The old
   one makes two searches, four reads and four writes for its samples, and reads 256 bins four
   times, the new one three times. Card two has order 2, the low byte first. */
void test_two_drivers(const char *path) {
    if (!perform_file(path, 2064))
        return;
    GIVES(1, rerun_count(&rerun, 9, 1));
    GIVES(1, rerun_count(&rerun, 10, 1));
    GIVES(2, rerun_count(&rerun, 11, 1));
    GIVES(10, rerun_count(&rerun, 18, 1));
    GIVES(14, rerun_count(&rerun, 0, 1));
    GIVES(7 * 256 + 3, rerun_count(&rerun, 9, 0));
    GIVES(2 + 4 + 4 + 4 * 256, rerun_editions(&rerun, 1));
    check_cells(4 * 3, (const uint8_t[4]){0, 0, 0, 1});
    check_cells(4 * 255, (const uint8_t[4]){0, 0, 0, 1});
    check_cells(1024, (const uint8_t[4]){1, 0, 0, 0});
    check_cells(1024 + 4 * 3, (const uint8_t[4]){3, 0, 0, 0});
}
