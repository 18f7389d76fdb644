/* The tests of the calls for C on board B1, whose image is on standard input; the arguments are the
   files with the traces of the incident and of the two drivers. The last line has the counts. */
#include <inttypes.h>
#include <stdio.h>
#include <string.h>
#include "check.h"

struct pci_board board;
uint8_t cells[65536], image[1100], sixteen[16 * 544 + 12];

static struct pci_board kept_board;
static uint8_t kept_cells[sizeof cells];
static int checks, failed;

static void count(int good, const char *file, int line, const char *what) {
    checks++;
    if (!good) {
        failed++;
        printf("%s:%d: %s: ", file, line, what);
    }
}

void check(const char *file, int line, const char *what, int64_t wanted, int64_t got) {
    count(got == wanted, file, line, what);
    if (got != wanted)
        printf("%" PRId64 " in place of %" PRId64 "\n", got, wanted);
}

void keep_state(void) {
    memcpy(&kept_board, &board, sizeof board);
    memcpy(kept_cells, cells, sizeof cells);
}

static int same_state(void) {
    return memcmp(&kept_board, &board, sizeof board) == 0 &&
           memcmp(kept_cells, cells, sizeof cells) == 0;
}

void check_same(const char *file, int line, const char *what) {
    count(same_state(), file, line, what);
    if (!same_state())
        printf("the board or its cells changed\n");
}

void check_altered(const char *file, int line, const char *what) {
    count(!same_state(), file, line, what);
    if (same_state())
        printf("neither the board nor its cells changed\n");
}

void load_fresh(void) {
    uint32_t place;
    memset(&board, 0, sizeof board);
    memset(cells, 0xAA, sizeof cells);
    GIVES(0, pci_load(&board, cells, sizeof cells, image, sizeof image, &place));
}

void put_long(uint8_t *at, uint32_t value) {
    for (int i = 0; i < 4; i++)
        at[i] = (uint8_t)(value >> (24 - 8 * i));
}

void put_trailer(uint8_t *records, uint32_t number) {
    uint32_t sum = 0;
    uint8_t *trailer = records + 544 * number;
    for (uint8_t *byte = records; byte < trailer; byte++)
        sum += *byte;
    put_long(trailer, 544 * number + 12);
    put_long(trailer + 4, number << 16 | 1);
    put_long(trailer + 8, sum);
}

struct pci_call told;

static void keep_call(const struct pci_call *call) {
    told = *call;
}

static void no_answer(const struct pci_board *on, const struct pci_answer *answer) {
    (void)on;
    (void)answer;
}

const struct pci_recorder keeper = {keep_call, no_answer};

int main(int argc, char **argv) {
    if (argc != 3 || fread(image, 1, sizeof image, stdin) != sizeof image)
        return 2;
    for (int i = 0; i < 16; i++)
        memcpy(sixteen + 544 * i, image, 544);
    put_trailer(sixteen, 16);
    put_long(image + 544 + 536, 0x1000);
    put_long(image + 544 + 540, 0x2000);
    put_trailer(image, 2);
    test_bios();
    test_editions();
    test_altered();
    test_driver();
    test_draft();
    test_cookie();
    test_status();
    test_passed_on();
    test_orders();
    test_trace();
    test_trace_refused();
    test_incident(argv[1]);
    test_two_drivers(argv[2]);
    printf("%d checks, %d failed\n", checks, failed);
    return failed != 0;
}
