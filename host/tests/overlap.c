/* Lends overlapping memory to one call, chosen by its number on the command line: a debug build
   must abort in it. The status is 0 where the call came back, 2 where no call has that number. */
#include <stdlib.h>
#include "pci_bios.h"

#define LATER PCI_LATER_TEXT

static struct pci_board board;
static uint8_t cells[64];
static struct pci_descriptor descriptor;
static uint32_t place, value, other;
static size_t following;
static int fault;

/* Buffers against each other, against the board, and without an address. */
static int buffers(int number) {
    uint8_t *inside = board.records + 100;
    void *in_cells = cells, *in_descriptor = &descriptor;
    switch (number) {
    case 1: return pci_check_image(cells, sizeof cells, (void *)(cells + 60)), 1;
    case 2: return pci_load(&board, cells, 32, cells + 31, 20, &place), 1;
    case 3: return pci_load(&board, cells + 31, 20, cells, 32, &place), 1;
    case 4: return pci_load(&board, inside, 20, cells, 32, &place), 1;
    case 5: return pci_load(&board, cells, 32, cells + 32, 32, (void *)cells), 1;
    case 6: return pci_reset(&board, inside, 1), 1;
    case 7: return pci_write_image(&board, inside, 1), 1;
    case 8: return pci_get_resource(&board, 1, inside, 1), 1;
    case 9: return pci_write_data(&board, inside, 1, 0, 4, 1, 0, 0, LATER), 1;
    case 10: return pci_read_data(&board, cells, sizeof cells, 0, 4, 1, 0, LATER, in_cells), 1;
    case 11: return pci_fast_read_data(&board, cells, sizeof cells, 0, 4, 1, 0, LATER, in_cells), 1;
    case 12: return pci_descriptor_step(cells, sizeof cells, 0, (void *)cells, &following), 1;
    case 13: return pci_descriptor_step(cells, sizeof cells, 0, &descriptor, in_descriptor), 1;
    case 14: return pci_write_image(&board, NULL, 1), 1;
    case 15: return pci_check_image(NULL, 1, &place), 1;
    default: return 0;
    }
}

/* Results that go into the board, and two results that go into one variable. */
static int results(int number) {
    void *in_board = board.header;
    switch (number) {
    case 16: return pci_list_window(&board, 0, (void *)board.registers), 1;
    case 17: return pci_read_config(&board, 4, 1, 0, board.header), 1;
    case 18: return pci_fast_read_config(&board, 4, 1, 0, (void *)&board.used[31]), 1;
    case 19: return pci_bus_to_cpu(&board, 1, 0, board.hooks), 1;
    case 20: return pci_cpu_to_bus(&board, 1, 0, board.hooks), 1;
    case 21: return pci_list_chain(&board, 5, 0, &other, &value, &value), 1;
    case 22: return pci_list_chain(&board, 5, 0, &board.used[0], &value, &other), 1;
    case 23: return pci_get_card_used(&board, 1, &value, &value), 1;
    case 24: return pci_get_card_used(&board, 1, &value, &board.used[1]), 1;
    case 25: return pci_read_data(&board, cells, sizeof cells, 0, 4, 1, 0, LATER, in_board), 1;
    case 26: return pci_fast_read_data(&board, cells, sizeof cells, 0, 4, 1, 0, LATER, in_board), 1;
    default: return 0;
    }
}

/* What touches without overlapping is lent apart, and an empty buffer is nowhere. */
static void apart(void) {
    pci_load(&board, cells, 32, cells + 32, 32, &place);
    pci_load(&board, board.records, 0, cells, 32, &place);
    pci_load(&board, cells, 32, cells + 8, 0, &place);
    pci_load(&board, NULL, 0, NULL, 0, &place);
    pci_fast_read_data(&board, NULL, 0, 0, 4, 1, 0, LATER, &fault);
}

int main(int argc, char **argv) {
    int number = argc > 1 ? atoi(argv[1]) : 0;
    if (number == 0)
        apart();
    return number == 0 || buffers(number) || results(number) ? 0 : 2;
}
