/* Two drivers of one kind of card on one board, whose image is on standard input: of
   boards/sizers.board, or B1's, where both kinds of address are the same. On card one the sizer's
   driver of draft 1.9, on card two that of the later text. Each counts on its own card and meets
   the stray bin 256; then card two changes hands, and both read its window, each by its own
   addresses. A trace of all calls goes to the file that the argument names, where there is one. */
#include "bench.h"
#include "sizer_draft.h"

static struct pci_board board;
static uint8_t cells[1024 + 1024 + 16]; /* as many as B1's windows have */
static struct sizer_draft old_cards[2];
static struct sizer new_card;
static const char *const names[2] = {"card one", "card two"};

static LONG read_old(const void *card, ULONG bin, ULONG *samples) {
    return sizer_draft_read(card, bin, samples);
}

static LONG read_new(const void *card, ULONG bin, ULONG *samples) {
    return sizer_read(card, bin, samples);
}

static void show_sample(const char *driver, const char *name, LONG bin, LONG answer) {
    printf("%s driver, %s, sample in bin %" PRId32 ": %" PRId32 "\n", driver, name, bin, answer);
}

static void sample_old(int card, LONG bin) {
    old_cards[card].sample = bin;
    interrupt();
    show_sample("old", names[card], bin, old_cards[card].answer);
}

static void sample_new(LONG bin) {
    new_card.sample = bin;
    interrupt();
    show_sample("new", names[1], bin, new_card.answer);
}

static int show_open(const char *driver, const char *name, LONG error, LONG handle,
                     const char *space, ULONG bins) {
    printf("%s driver, %s: open %" PRId32 ", handle %" PRId32, driver, name, error, handle);
    printf(", bins from %s address %08" PRIx32 "\n", space, bins);
    return error != PCI_SUCCESSFUL;
}

static int open_old(int card) {
    LONG error = sizer_draft_open(&old_cards[card], (UWORD)card);
    return show_open("old", names[card], error, old_cards[card].handle, "CPU",
                     old_cards[card].bins);
}

static int open_new(void) {
    LONG error = sizer_open(&new_card, 1);
    return show_open("new", names[1], error, new_card.handle, "bus", new_card.bins);
}

/* Each card by a driver that counts on it. */
static int show_bins(void) {
    static ULONG bins[SIZER_BINS];
    return read_bins("card one by the old driver", read_old, &old_cards[0], bins) != 0 ||
           read_bins("card two by the new driver", read_new, &new_card, bins) != 0;
}

static int count_apart(void) {
    sample_old(0, 3);
    sample_old(0, 255);
    sample_new(0);
    sample_new(3);
    sample_new(3);
    return show_bins();
}

/* By address bin 256 of card one is bin 0 of card two. */
static int count_stray(void) {
    printf("the stray samples\n");
    sample_old(0, 256);
    sample_new(256);
    return show_bins();
}

/* The new driver keeps no hook; its reads need none. */
static int count_together(void) {
    static ULONG bins[SIZER_BINS];
    printf("card two changes hands: close %" PRId32 "\n", sizer_close(&new_card));
    if (open_old(1) != 0)
        return 1;
    show_line();
    sample_old(1, 3);
    return read_bins("card two by the old driver", read_old, &old_cards[1], bins) != 0 ||
           show_bins();
}

static int run(void) {
    if (load_board(&board, cells, sizeof cells) != 0 || open_old(0) != 0 || open_new() != 0)
        return 1;
    show_line();
    if (count_apart() != 0 || count_stray() != 0 || count_together() != 0)
        return 1;
    LONG one = sizer_draft_close(&old_cards[0]), two = sizer_draft_close(&old_cards[1]);
    printf("closed: %" PRId32 " and %" PRId32 "\n", one, two);
    return 0;
}

int main(int argc, char **argv) {
    return run_recorded(argc, argv, run, &board, cells, sizeof cells);
}
