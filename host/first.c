/* A first use from C: loads the image on standard input, finds its two cards, moves the second
   one's memory window onto the first one's and back, with a list of the memory windows each time,
   and writes the board back. Each card has 256 bins of four bytes; last, a sample is counted in the
   first card's last bin, and a stray one in the bin past it. */
#include <inttypes.h>
#include <stdio.h>
#include "pci_bios.h"

static struct pci_board board;
static uint8_t image[65537], cells[65536], out[65536];

static void list_memory(void) {
    struct pci_window window;
    for (uint32_t n = 0; pci_list_window(&board, n, &window) == 0; n++)
        if (!window.io)
            printf("memory %08" PRIx32 ", %" PRIu32 " bytes, handle %" PRIu32 ", %s\n",
                   window.start, window.length, window.handle,
                   window.contested ? "contested" : "clear");
}

/* A bin is a longword of the card's memory window. */
static int32_t put_bin(int32_t card, uint32_t start, uint32_t bin, uint32_t samples) {
    return pci_write_data(&board, cells, sizeof cells, 0, 4, card, start + 4 * bin, samples,
                          PCI_LATER_TEXT);
}

static void show_bin(int32_t card, uint32_t start, uint32_t bin) {
    uint32_t samples;
    int32_t number = pci_read_data(&board, cells, sizeof cells, 0, 4, card, start + 4 * bin,
                                   PCI_LATER_TEXT, &samples);
    printf("handle %" PRId32 ", bin %" PRIu32 ": read %" PRId32 ", samples %" PRIu32 "\n", card,
           bin, number, samples);
}

int main(void) {
    uint32_t place, first_start, second_start;
    size_t length = fread(image, 1, sizeof image, stdin);
    int32_t number = pci_load(&board, cells, sizeof cells, image, length, &place);
    printf("load %" PRId32 "\n", number);
    list_memory();

    /* A card that is not found has a negative number, and no call takes that for a handle. */
    int32_t first = pci_find_device(&board, 0x00010F0F, 0, PCI_LATER_TEXT);
    int32_t second = pci_find_device(&board, 0x00010F0F, 1, PCI_LATER_TEXT);
    printf("found %" PRId32 " and %" PRId32 "\n", first, second);
    pci_read_config(&board, 4, first, 0x10, &first_start);
    pci_read_config(&board, 4, second, 0x10, &second_start);

    printf("moved %" PRId32 "\n", pci_write_config(&board, 4, second, 0x10, first_start));
    list_memory();
    printf("moved back %" PRId32 "\n", pci_write_config(&board, 4, second, 0x10, second_start));
    list_memory();

    printf("written %" PRId32 "\n", pci_write_image(&board, out, sizeof out));

    /* By address bin 256 of the first card is bin 0 of the second; through the first card's
       handle it is nothing. */
    printf("sample in bin 255 %" PRId32 "\n", put_bin(first, first_start, 255, 1));
    printf("sample in bin 256 %" PRId32 "\n", put_bin(first, first_start, 256, 1));
    show_bin(first, first_start, 255);
    show_bin(second, second_start, 0);
    return number != 0;
}
