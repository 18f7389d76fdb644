/* Runs that are recorded: performed again as scripts they must give the same answers and leave
   the same board. */
#include <string.h>
#include "check.h"
#include "pci_driver.h"
#include "pci_trace.h"
#include "rerun.h"

/* A board with its cells, and the streams of its trace. */
struct recording {
    struct pci_board board;
    uint8_t cells[70000];
    size_t cells_length;
    struct pci_trace trace;
    FILE *calls, *answers;
};

static struct recording one, two, three;
static struct rerun rerun;
static uint8_t answers[sizeof rerun.answers], out[70000];

/* The cells are lent with some contents, which belong to the trace. */
static void start(struct recording *r, size_t cells_length) {
    memset(&r->board, 0, sizeof r->board);
    for (size_t i = 0; i < sizeof r->cells; i++)
        r->cells[i] = (uint8_t)(i * i >> 3);
    r->cells_length = cells_length;
    r->calls = tmpfile();
    r->answers = tmpfile();
    GIVES(0, pci_trace_start(&r->trace, &r->board, r->cells, cells_length, r->calls, r->answers));
}

/* Whether a second run of the script gives the answers that stand in `answers`, and stops
   at its end. */
static int same_answers(size_t length) {
    rerun_perform(&rerun);
    return rerun.stop == rerun.length && rerun.length == length &&
           memcmp(rerun.answers, answers, length) == 0;
}

/* Ends a recording, which must be complete, and compares: answers, board, cells. `rerun` keeps
   the second run. */
static void check_replays(struct recording *r) {
    size_t cells_kept = r->cells_length < 65536 ? r->cells_length : 65536;
    size_t board_bytes = offsetof(struct pci_board, used) + sizeof r->board.used;
    GIVES(0, pci_trace_end(&r->trace));
    size_t length = read_all(r->answers, answers, sizeof answers);
    memset(&rerun, 0xEE, sizeof rerun);
    GIVES(1, rerun_read(&rerun, r->calls));
    GIVES((int64_t)cells_kept, rerun.cells_length);
    GIVES(1, same_answers(length));
    GIVES(0, memcmp(&rerun.board, &r->board, board_bytes));
    GIVES(0, memcmp(rerun.cells, r->cells, cells_kept));
    fclose(r->calls);
    fclose(r->answers);
}

static void load(struct recording *r) {
    uint32_t place;
    GIVES(0, pci_load(&r->board, r->cells, r->cells_length, image, sizeof image, &place));
}

/* Images and outputs, too long ones as well, and the searches. */
static void make_image_calls(struct recording *r) {
    struct pci_board *on = &r->board;
    uint32_t place;
    GIVES(3, pci_write_image(on, out, sizeof out));
    GIVES(1, pci_write_image(on, NULL, 0));
    GIVES(1, pci_load(on, r->cells, r->cells_length, NULL, 0, &place));
    GIVES(1, pci_load(on, r->cells, r->cells_length, out, sizeof out, &place));
    GIVES(0, pci_reset(on, r->cells, r->cells_length));
    load(r);
    GIVES(0, pci_write_image(on, out + 1, sizeof out - 1));
    GIVES(0, memcmp(out + 1, image, sizeof image));
    GIVES(0, pci_write_image(on, out, sizeof image));
    GIVES(1, pci_write_image(on, out, sizeof image - 1));
    GIVES(2, pci_find_device(on, 0x00010F0F, 1, LATER));
    GIVES(-4, pci_find_device(on, 0x00010F0F, 65536, LATER));
    GIVES(1, pci_find_class(on, 0xF9118055, 0, LATER));
    GIVES(-4, pci_find_class(on, 0x00118000, 2, LATER));
}

/* Of a value above its width the low bytes count; a width that is none is no call of a run. */
static void make_config_calls(struct recording *r) {
    struct pci_board *on = &r->board;
    uint32_t value;
    int fault;
    GIVES(0, pci_write_config(on, 1, 2, 0x11, 0xABCDEF12));
    GIVES(0, pci_read_config(on, 4, 2, 0x10, &value));
    GIVES(0x80001000, value);
    GIVES(0, pci_write_config(on, 2, 2, 0x12, 0xABCD1234));
    GIVES(0x12341000, pci_fast_read_config(on, 4, 2, 0x10, &fault));
    GIVES(-8, pci_write_config(on, 3, 2, 0x10, 1));
    GIVES(-8, pci_read_config(on, 0, 2, 0x10, &value));
    GIVES(0xFFFFFFFF, pci_fast_read_config(on, 0x101, 2, 0x10, &fault));
    GIVES(-5, pci_write_config(on, 4, 2, 0x11, 1));
    GIVES(-5, pci_read_config(on, 2, 1, 0x11, &value));
    GIVES(-9, pci_read_config(on, 1, 0xFFFFFFFF, 0x11, &value));
    GIVES(0xFFFF, pci_fast_read_config(on, 2, 3, 0x10, &fault));
    GIVES(0, pci_write_config(on, 4, 2, 0x10, 0x80000400));
}

/* I/O is any number but 0. */
static void make_data_calls(struct recording *r) {
    struct pci_board *on = &r->board;
    uint32_t value;
    int fault;
    GIVES(0, pci_write_data(on, r->cells, r->cells_length, 0, 4, 2, 0x80000400, 0x11223344, LATER));
    GIVES(0, pci_write_data(on, r->cells, r->cells_length, 0, 2, 2, 0x80000404, 0xABCD5566, LATER));
    GIVES(0, pci_write_data(on, r->cells, r->cells_length, -1, 1, 2, 0x10F, 0x155, LATER));
    GIVES(-8, pci_write_data(on, r->cells, r->cells_length, 0, 4, 1, 0x80000400, 1, LATER));
    GIVES(-8, pci_write_data(on, r->cells, r->cells_length, 0, 8, 2, 0x80000400, 1, LATER));
    GIVES(0, pci_read_data(on, r->cells, r->cells_length, 0, 4, 2, 0x80000404, LATER, &value));
    GIVES(0x5566, value);
    GIVES(0, pci_read_data(on, r->cells, r->cells_length, 256, 1, 2, 0x10F, LATER, &value));
    GIVES(0x55, value);
    GIVES(-2, pci_read_data(on, r->cells, r->cells_length, 7, 2, 2, 0x10E, LATER, &value));
    GIVES(0x44,
          pci_fast_read_data(on, r->cells, r->cells_length, 0, 1, 2, 0x80000400, LATER, &fault));
    GIVES(0xFF, pci_fast_read_data(on, r->cells, r->cells_length, 1, 1, 2, 0x110, LATER, &fault));
    GIVES(0, pci_bus_to_cpu(on, 2, 0xFFFFF004, &value));
    GIVES(-9, pci_bus_to_cpu(on, 3, 0x1234, &value));
    GIVES(0, pci_cpu_to_bus(on, 2, 0x1234, &value));
    GIVES(-9, pci_cpu_to_bus(on, 0, 0x1234, &value));
}

/* Listings and descriptors; an output that is longer than its descriptors keeps its other bytes. */
static void make_listing_calls(struct recording *r) {
    struct pci_board *on = &r->board;
    struct pci_window window;
    uint32_t handle, handler, parameter;
    GIVES(0, pci_list_window(on, 2, &window));
    GIVES(-4, pci_list_window(on, 3, &window));
    memset(out, 0xAA, 60);
    GIVES(0, pci_get_resource(on, 2, out, 60));
    GIVES(-7, pci_get_resource(on, 2, out, 39));
    GIVES(-9, pci_get_resource(on, 3, NULL, 0));
    GIVES(0, pci_hook_interrupt(on, 2, 0x21, 0x22));
    GIVES(0, pci_hook_interrupt(on, 1, 0x11, 0x12));
    GIVES(-6, pci_hook_interrupt(on, 2, 0x31, 0x32));
    GIVES(0, pci_list_chain(on, 5, 1, &handle, &handler, &parameter));
    GIVES(-4, pci_list_chain(on, 5, 2, &handle, &handler, &parameter));
    GIVES(-8, pci_list_chain(on, 0x105, 0, &handle, &handler, &parameter));
    GIVES(0, pci_unhook_interrupt(on, 2));
    GIVES(-8, pci_unhook_interrupt(on, 2));
}

static void make_used_calls(struct recording *r) {
    struct pci_board *on = &r->board;
    uint32_t status, callback;
    GIVES(0, pci_set_card_used(on, 2, 2, 0x1234));
    GIVES(-8, pci_set_card_used(on, 2, 4, 0x5678));
    GIVES(0, pci_get_card_used(on, 2, &status, &callback));
    GIVES(0x1234, callback);
    GIVES(-9, pci_get_card_used(on, 3, &status, &callback));
    GIVES(-2, pci_special_cycle(7, 0x12345678));
    GIVES(-2, pci_get_routing());
    GIVES(-2, pci_set_interrupt());
}

/* Both editions on one window, handle 2 having the offset 1000h, and editions that are none. */
static void make_edition_calls(struct recording *r) {
    struct pci_board *on = &r->board;
    size_t n = r->cells_length;
    uint32_t value;
    int fault;
    GIVES(2, pci_find_device(on, 0x0F0F0001, 1, DRAFT));
    GIVES(-3, pci_find_device(on, 0xFFFF0001, 1, DRAFT));
    GIVES(-2, pci_find_device(on, 0x00010F0F, 1, 0));
    GIVES(1, pci_find_class(on, 0xFF118000, 0, DRAFT));
    GIVES(-2, pci_find_class(on, 0xFF118000, 0, 0x102));
    GIVES(0, pci_write_data(on, r->cells, n, 0, 4, 2, 0x80001408, 0x55667788, DRAFT));
    GIVES(-8, pci_write_data(on, r->cells, n, 0, 4, 2, 0x80000408, 0x55667788, DRAFT));
    GIVES(-2, pci_write_data(on, r->cells, n, 0, 4, 2, 0x80000408, 0x55667788, 3));
    GIVES(0, pci_read_data(on, r->cells, n, 0, 2, 2, 0x80000408, LATER, &value));
    GIVES(0x7788, value);
    GIVES(0, pci_read_data(on, r->cells, n, 0, 2, 2, 0x80001408, DRAFT, &value));
    GIVES(0x7788, value);
    GIVES(-2, pci_read_data(on, r->cells, n, 0, 2, 9, 0x80000408, 0x80000000, &value));
    GIVES(0x88, pci_fast_read_data(on, r->cells, n, 0, 1, 2, 0x80001408, DRAFT, &fault));
    GIVES(0xFF, pci_fast_read_data(on, r->cells, n, 1, 1, 2, 0x100, DRAFT, &fault));
    GIVES(0xFFFF, pci_fast_read_data(on, r->cells, n, 0, 2, 2, 0x80000408, UINT32_MAX, &fault));
    GIVES(-2, pci_write_data(on, r->cells, n, 0, 8, 2, 0x80000408, 1, 3));
}

static void make_every_call(struct recording *r) {
    make_image_calls(r);
    make_config_calls(r);
    make_data_calls(r);
    make_edition_calls(r);
    make_listing_calls(r);
    make_used_calls(r);
}

/* In a run reset is never refused, as the load has refused cells that are too short; the last three
   always are. Of three buffers of some 70,000 bytes 65,537 are kept; five more are not empty. The
   third argument says an edition, 2 as 0 and 0 as 2. */
static void test_every_call(void) {
    start(&one, 2064);
    make_every_call(&one);
    check_replays(&one);
    for (unsigned operation = 1; operation <= 23; operation++) {
        GIVES(operation <= 20, rerun_count(&rerun, operation, 0) > 0);
        GIVES(operation != 2, rerun_count(&rerun, operation, 1) > 0);
    }
    GIVES(69, rerun_count(&rerun, 0, 0) + rerun_count(&rerun, 0, 1));
    GIVES(8, rerun_editions(&rerun, 1));
    GIVES(1, rerun_editions(&rerun, 2));
    GIVES(1, rerun_editions(&rerun, 3));
    GIVES(1, rerun_editions(&rerun, 0x102));
    GIVES(1, rerun_editions(&rerun, 0x80000000));
    GIVES(1, rerun_editions(&rerun, 0xFFFFFFFF));
    GIVES(69 - 13, rerun_editions(&rerun, 0));
    GIVES(69 * 64 + 3 * 65537 + 1100 + 1100 + 1099 + 60 + 39, rerun.length);
}

/* Of more cells than any window can have the first 65,536 are kept; no cells at all may be NULL. */
static void test_cells(void) {
    start(&one, sizeof one.cells);
    make_every_call(&one);
    check_replays(&one);
    start(&one, 0);
    uint32_t place;
    GIVES(8, pci_load(&one.board, NULL, 0, image, sizeof image, &place));
    GIVES(8, pci_load(&one.board, one.cells, 0, image, sizeof image, &place));
    check_replays(&one);
}

static LONG handler(LONG *value, LONG internal) {
    return *value + internal;
}

static LONG callback(LONG function) {
    return function;
}

/* By the driver's layer; what is written first are the cells of a fresh load, so that no answer
   is 0 for want of one. */
static void test_driver_calls(void) {
    LONG parameter, handle;
    pci_handler *routine;
    pci_callback *called;
    void *kept;
    UBYTE byte;
    start(&one, 2064);
    load(&one);
    pci_use_board(&one.board, one.cells, one.cells_length);
    GIVES(2, find_pci_device(0x00010F0F, 1));
    GIVES(1, get_resource(2) > 0);
    GIVES(0, write_config_word(2, 0x12, 0x9000));
    GIVES(0x9000, fast_read_config_word(2, 0x12));
    GIVES(0, write_mem_longword(2, 0x90000400, 0x11223344));
    GIVES(0x33, fast_read_mem_byte(2, 0x90000401));
    GIVES(PCI_GENERAL_ERROR, write_mem_byte(1, 0x90000400, 1));
    GIVES(2, draft_find_pci_device(0x0F0F0001, 1));
    GIVES(0, draft_read_mem_byte(2, 0x90001401, &byte));
    GIVES(0x33, byte);
    GIVES(0, write_io_byte(2, 0x105, 0x77));
    GIVES(0, read_io_byte(2, 0x105, &byte));
    GIVES(0, hook_interrupt(2, handler, &parameter));
    GIVES(0, pci_list_handlers(5, 0, &handle, &routine, &kept));
    GIVES(0, set_card_used(2, callback));
    GIVES(2, get_card_used(2, &called));
    GIVES(PCI_FUNC_NOT_SUPPORTED, special_cycle(1, 2));
    pci_use_board(NULL, NULL, 0);
    GIVES(PCI_BAD_HANDLE, write_io_byte(2, 0x105, 0x77));
    check_replays(&one);
    GIVES(15, rerun_count(&rerun, 0, 0));
    GIVES(2, rerun_count(&rerun, 0, 1));
    GIVES(2, rerun_editions(&rerun, 1));
}

/* Three boards by turns; the calls without a board are in every trace, and an ended one does
   not disturb the others. */
static void test_several_boards(void) {
    start(&one, 2064);
    start(&two, 3000);
    start(&three, 2064);
    load(&two);
    make_every_call(&one);
    GIVES(0, pci_write_data(&two.board, two.cells, 3000, 0, 4, 2, 0x80000400, 2, LATER));
    load(&three);
    GIVES(0, pci_write_data(&three.board, three.cells, 2064, 0, 4, 2, 0x80000400, 3, LATER));
    check_replays(&two);
    GIVES(5, rerun_count(&rerun, 0, 0) + rerun_count(&rerun, 0, 1));
    GIVES(0, pci_write_data(&two.board, two.cells, 3000, 0, 4, 2, 0x80000400, 4, LATER));
    GIVES(0, pci_reset(&three.board, three.cells, 2064));
    check_replays(&one);
    GIVES(-2, pci_get_routing());
    check_replays(&three);
    GIVES(7, rerun_count(&rerun, 0, 0) + rerun_count(&rerun, 0, 1));
}

/* Whether the comparison finds a byte of the recorded answers changed, one after the other, and
   a changed argument. */
static void test_comparison(void) {
    start(&one, 2064);
    load(&one);
    GIVES(0, pci_write_data(&one.board, one.cells, 2064, 0, 4, 2, 0x80000400, 0x11223344, LATER));
    int fault;
    GIVES(0x11223344,
          pci_fast_read_data(&one.board, one.cells, 2064, 0, 4, 2, 0x80000400, LATER, &fault));
    GIVES(0, pci_get_resource(&one.board, 2, out, 40));
    check_replays(&one);
    size_t length = rerun.length, missed = 0;
    for (size_t at = 0; at < length; at++) {
        answers[at] ^= 1;
        missed += same_answers(length) != 0;
        answers[at] ^= 1;
    }
    GIVES(0, missed);
    GIVES(1, same_answers(length));
    rerun.script[64 + sizeof image + 15] ^= 1;
    GIVES(0, same_answers(length));
}

/* A header of 64 bytes, by docs/SCRIPT.md; the numbers are handle, a, b, c. */
static void check_header(size_t at, const uint8_t *first, const uint32_t *numbers) {
    uint8_t wanted[64] = {first[0], first[1], first[2], first[3]};
    for (size_t i = 0; i < 16; i++)
        wanted[4 + i] = (uint8_t)(numbers[i / 4] >> (24 - i % 4 * 8));
    GIVES(0, memcmp(rerun.script + 64 * at, wanted, sizeof wanted));
}

#define HEADER(at, operation, width, space, byte, handle, a, b, c)     \
    check_header(at, (const uint8_t[]){operation, width, space, byte}, \
                 (const uint32_t[]){handle, a, b, c})

static void make_refused_calls(struct pci_board *on) {
    uint32_t value, more, most;
    int fault;
    pci_find_device(on, 0x11121314, 0x21222324, LATER);
    pci_find_class(on, 0x11121314, 0x21222324, LATER);
    pci_read_config(on, 1, 0x31323334, 0x41, &value);
    pci_fast_read_config(on, 2, 0x31323334, 0x41, &fault);
    pci_write_config(on, 4, 0x31323334, 0x41, 0x11121314);
    pci_read_data(on, one.cells, 64, 0, 1, 0x31323334, 0x11121314, LATER, &value);
    pci_fast_read_data(on, one.cells, 64, -1, 2, 0x31323334, 0x11121314, LATER, &fault);
    pci_write_data(on, one.cells, 64, 3, 4, 0x31323334, 0x11121314, 0x21222324, LATER);
    pci_bus_to_cpu(on, 0x31323334, 0x11121314, &value);
    pci_cpu_to_bus(on, 0x31323334, 0x11121314, &value);
    pci_hook_interrupt(on, 0x31323334, 0x11121314, 0x21222324);
    pci_list_chain(on, 0x11121314, 0x21222324, &value, &more, &most);
    pci_set_card_used(on, 0x31323334, 0x11121314, 0x21222324);
    pci_special_cycle(0x41, 0x11121314);
    pci_get_routing();
    pci_set_interrupt();
}

/* A refused call's answer may not depend on a field, so the headers are looked at by themselves. */
static void test_headers(void) {
    start(&one, 64);
    make_refused_calls(&one.board);
    check_replays(&one);
    HEADER(0, 4, 0, 0, 0, 0, 0x11121314, 0x21222324, 0);
    HEADER(1, 5, 0, 0, 0, 0, 0x11121314, 0x21222324, 0);
    HEADER(2, 6, 1, 0, 0x41, 0x31323334, 0, 0, 0);
    HEADER(3, 7, 2, 0, 0x41, 0x31323334, 0, 0, 0);
    HEADER(4, 8, 4, 0, 0x41, 0x31323334, 0x11121314, 0, 0);
    HEADER(5, 9, 1, 0, 0, 0x31323334, 0x11121314, 0, 0);
    HEADER(6, 10, 2, 1, 0, 0x31323334, 0x11121314, 0, 0);
    HEADER(7, 11, 4, 1, 0, 0x31323334, 0x11121314, 0x21222324, 0);
    HEADER(8, 12, 0, 0, 0, 0x31323334, 0x11121314, 0, 0);
    HEADER(9, 13, 0, 0, 0, 0x31323334, 0x11121314, 0, 0);
    HEADER(10, 16, 0, 0, 0, 0x31323334, 0x11121314, 0x21222324, 0);
    HEADER(11, 18, 0, 0, 0, 0, 0x11121314, 0x21222324, 0);
    HEADER(12, 20, 0, 0, 0, 0x31323334, 0x11121314, 0x21222324, 0);
    HEADER(13, 21, 0, 0, 0x41, 0, 0x11121314, 0, 0);
    HEADER(14, 22, 0, 0, 0, 0, 0, 0, 0);
    HEADER(15, 23, 0, 0, 0, 0, 0, 0, 0);
}

/* Of the calls that test_headers left, those with a third argument take another one; a run stops
   before any other that has one. */
static void test_third_argument(void) {
    for (size_t at = 0; at < rerun.length; at += 64) {
        unsigned operation = rerun.script[at];
        int named = operation == 4 || operation == 5 || (9 <= operation && operation <= 11);
        for (size_t byte = 16; byte < 20; byte++) {
            rerun.script[at + byte] = 0x80;
            rerun_perform(&rerun);
            GIVES((int64_t)(named ? rerun.length : at), rerun.stop);
            rerun.script[at + byte] = 0;
        }
    }
}

/* The five calls that name an edition, in one that they hand over as it is. */
static void make_named_calls(struct pci_board *on, uint32_t edition) {
    uint32_t value;
    int fault;
    pci_find_device(on, 0x11121314, 0x21222324, edition);
    pci_find_class(on, 0x11121314, 0x21222324, edition);
    pci_read_data(on, one.cells, 64, 0, 1, 0x31323334, 0x11121314, edition, &value);
    pci_fast_read_data(on, one.cells, 64, 1, 2, 0x31323334, 0x11121314, edition, &fault);
    pci_write_data(on, one.cells, 64, 0, 4, 0x31323334, 0x11121314, 0x21222324, edition);
}

/* Each edition number, and the third argument that says it. */
static void test_edition_headers(void) {
    static const uint32_t said[][2] = {{0, 2},
                                       {1, 1},
                                       {2, 0},
                                       {3, 3},
                                       {0x102, 0x102},
                                       {0x41424344, 0x41424344},
                                       {0x80000000, 0x80000000},
                                       {0xFFFFFFFF, 0xFFFFFFFF}};
    size_t editions = sizeof said / sizeof said[0];
    start(&one, 64);
    for (size_t i = 0; i < editions; i++)
        make_named_calls(&one.board, said[i][0]);
    check_replays(&one);
    GIVES((int64_t)(5 * editions * 64), rerun.length);
    for (size_t i = 0; i < editions; i++) {
        uint32_t c = said[i][1];
        HEADER(5 * i, 4, 0, 0, 0, 0, 0x11121314, 0x21222324, c);
        HEADER(5 * i + 1, 5, 0, 0, 0, 0, 0x11121314, 0x21222324, c);
        HEADER(5 * i + 2, 9, 1, 0, 0, 0x31323334, 0x11121314, 0, c);
        HEADER(5 * i + 3, 10, 2, 1, 0, 0x31323334, 0x11121314, 0, c);
        HEADER(5 * i + 4, 11, 4, 0, 0, 0x31323334, 0x11121314, 0x21222324, c);
    }
}

void test_trace(void) {
    test_every_call();
    test_cells();
    test_driver_calls();
    test_several_boards();
    test_comparison();
    test_headers();
    test_third_argument();
    test_edition_headers();
}
