/* The incident, replayed on board B1, whose image is on standard input: two sizers on one line, and
   a stray sample that is sized as bin 256 of card one, which by address is bin 0 of card two. A
   trace of all calls goes to the file that the argument names, where there is one. */
#include <string.h>
#include "bench.h"

static struct pci_board board;
static uint8_t cells[1024 + 1024 + 16]; /* as many as B1's windows have; a trace keeps them all */
static struct sizer cards[2];
static const char *const names[2] = {"card one", "card two"};

static void sample(int card, LONG bin) {
    cards[card].sample = bin;
    interrupt();
    printf("%s, sample in bin %" PRId32 ": %" PRId32 "\n", names[card], bin, cards[card].answer);
}

static LONG read_sizer(const void *card, ULONG bin, ULONG *samples) {
    return sizer_read(card, bin, samples);
}

static int read_cards(ULONG (*bins)[SIZER_BINS]) {
    for (int card = 0; card < 2; card++)
        if (read_bins(names[card], read_sizer, &cards[card], bins[card]) != 0)
            return -1;
    return 0;
}

static int open_cards(void) {
    for (int card = 0; card < 2; card++) {
        LONG error = sizer_open(&cards[card], (UWORD)card);
        if (error != PCI_SUCCESSFUL)
            return printf("%s: error %" PRId32 "\n", names[card], error), -1;
        printf("%s: handle %" PRId32 ", %d bins from %08" PRIx32 "\n", names[card],
               cards[card].handle, SIZER_BINS, cards[card].bins);
    }
    return 0;
}

static int run(void) {
    static ULONG before[2][SIZER_BINS], after[2][SIZER_BINS];
    if (load_board(&board, cells, sizeof cells) != 0 || open_cards() != 0)
        return 1;
    show_line();

    sample(0, 17);
    sample(0, 255);
    sample(1, 0);
    sample(1, 0);
    if (read_cards(before) != 0)
        return 1;

    printf("the stray sample\n");
    sample(0, 256);
    if (read_cards(after) != 0)
        return 1;
    for (int card = 0; card < 2; card++) {
        int same = memcmp(before[card], after[card], sizeof after[card]) == 0;
        printf("%s's bins %s\n", names[card], same ? "are as they were" : "HAVE CHANGED");
    }
    LONG one = sizer_close(&cards[0]), two = sizer_close(&cards[1]);
    printf("closed: %" PRId32 " and %" PRId32 "\n", one, two);
    return 0;
}

int main(int argc, char **argv) {
    return run_recorded(argc, argv, run, &board, cells, sizeof cells);
}
