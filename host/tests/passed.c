/* What pci_bios.c hands to the library in a special cycle, whose arguments change no answer: it is
   compiled with this test_special_cycle instead of bios_special_cycle. */
#include "pci_bios.h"
#include "pci_driver.h"

static uint8_t seen_bus;
static uint32_t seen_message;

int32_t test_special_cycle(uint8_t bus, uint32_t message) {
    seen_bus = bus;
    seen_message = message;
    return -2;
}

int main(void) {
    if (pci_special_cycle(0x41, 0x11121314) != -2 || seen_bus != 0x41 || seen_message != 0x11121314)
        return 1;
    if (special_cycle(0xC2, 0xA1A2A3A4) != -2 || seen_bus != 0xC2 || seen_message != 0xA1A2A3A4)
        return 1;
    return 0;
}
