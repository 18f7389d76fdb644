/* Loads with a library whose board may have another layout: the argument names the part that is
   longer there, by its number. pci_bios.c is compiled with this test_part_bytes instead of
   bios_part_bytes; the load must abort. */
#include <stdlib.h>
#include <string.h>
#include "pci_bios.h"

static struct pci_board board;
static uint32_t longer;

uint64_t test_part_bytes(uint32_t part) {
    const size_t bytes[8] = {sizeof board.header,       sizeof board.records,
                             sizeof board.registers,    sizeof board.windows,
                             sizeof board.cell_offsets, sizeof board.hooks,
                             sizeof board.used,         0};
    return bytes[part] + (part == longer);
}

int main(int argc, char **argv) {
    uint32_t place;
    if (argc != 2)
        return 2;
    longer = strcmp(argv[1], "none") == 0 ? 99 : (uint32_t)atoi(argv[1]);
    return pci_load(&board, NULL, 0, NULL, 0, &place) == 1 ? 0 : 1;
}
