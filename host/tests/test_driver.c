/* Every call of pci_driver.h, accepted and refused, and the pointers that it keeps for hooks
   and call-backs. */
#include <string.h>
#include "check.h"
#include "pci_driver.h"

static UBYTE byte;
static UWORD word;
static ULONG longword;

/* Handlers and call-backs are kept and compared; nothing calls them. */
static LONG first_handler(LONG *parameter, LONG internal) {
    return *parameter + internal;
}

static LONG second_handler(LONG *parameter, LONG internal) {
    return *parameter - internal;
}

static LONG first_callback(LONG function) {
    return function;
}

static LONG second_callback(LONG function) {
    return -function;
}

static void use_fresh(void) {
    load_fresh();
    pci_use_board(&board, cells, sizeof cells);
}

static void test_searches(void) {
    use_fresh();
    LEAVES(2, find_pci_device(0x00010F0F, 1));
    LEAVES(PCI_DEVICE_NOT_FOUND, find_pci_device(0x00010F0F, 2));
    LEAVES(2, find_pci_classcode(0x01118055, 1));
    LEAVES(PCI_DEVICE_NOT_FOUND, find_pci_classcode(0x00118055, 0));
}

static void test_config_reads(void) {
    use_fresh();
    LEAVES(0, read_config_byte(2, 0x11, &byte));
    GIVES(0x04, byte);
    LEAVES(PCI_BAD_HANDLE, read_config_byte(-1, 0x11, &byte));
    GIVES(0, byte);
    LEAVES(0, read_config_word(2, 0x12, &word));
    GIVES(0x8000, word);
    LEAVES(PCI_BAD_REGISTER_NUMBER, read_config_word(2, 0x13, &word));
    GIVES(0, word);
    LEAVES(0, read_config_longword(2, 0x10, &longword));
    GIVES(0x80000400, longword);
    LEAVES(PCI_BAD_REGISTER_NUMBER, read_config_longword(2, 0x12, &longword));
    GIVES(0, longword);
    LEAVES(0x04, fast_read_config_byte(2, 0x11));
    LEAVES(0xFF, fast_read_config_byte(3, 0x11));
    LEAVES(0x8000, fast_read_config_word(2, 0x12));
    LEAVES(0xFFFF, fast_read_config_word(2, 0x13));
    LEAVES(0x80000400, fast_read_config_longword(2, 0x10));
    LEAVES(0xFFFFFFFF, fast_read_config_longword(2, 0x12));
}

static void test_config_writes(void) {
    use_fresh();
    ALTERS(0, write_config_byte(1, 0x11, 0x12));
    LEAVES(0x80001000, fast_read_config_longword(1, 0x10));
    LEAVES(PCI_BAD_HANDLE, write_config_byte(0, 0x11, 0x12));
    ALTERS(0, write_config_word(1, 0x12, 0x1234));
    LEAVES(0x12341000, fast_read_config_longword(1, 0x10));
    LEAVES(PCI_BAD_REGISTER_NUMBER, write_config_word(1, 0x11, 0x1234));
    ALTERS(0, write_config_longword(2, 0x14, 0xFFFFFFFF));
    LEAVES(0xFFFFFFF1, fast_read_config_longword(2, 0x14));
    LEAVES(PCI_BAD_REGISTER_NUMBER, write_config_longword(1, 0x11, 0));
}

/* Order 1: the word at an address is the longword's low half, the byte its lowest. */
static void test_memory(void) {
    use_fresh();
    ALTERS(0, write_mem_longword(2, 0x80000400, 0x11223344));
    LEAVES(PCI_GENERAL_ERROR, write_mem_longword(1, 0x80000400, 1));
    LEAVES(0, read_mem_longword(2, 0x80000400, &longword));
    GIVES(0x11223344, longword);
    LEAVES(PCI_GENERAL_ERROR, read_mem_longword(1, 0x80000400, &longword));
    GIVES(0, longword);
    ALTERS(0, write_mem_word(2, 0x80000402, 0x5566));
    LEAVES(PCI_GENERAL_ERROR, write_mem_word(2, 0x80000401, 1));
    LEAVES(0, read_mem_word(2, 0x80000402, &word));
    GIVES(0x5566, word);
    LEAVES(PCI_GENERAL_ERROR, read_mem_word(2, 0x80000401, &word));
    GIVES(0, word);
    ALTERS(0, write_mem_byte(2, 0x80000400, 0x77));
    LEAVES(PCI_BAD_HANDLE, write_mem_byte(3, 0x80000400, 1));
    LEAVES(0, read_mem_byte(2, 0x80000400, &byte));
    GIVES(0x77, byte);
    LEAVES(PCI_BAD_HANDLE, read_mem_byte(3, 0x80000400, &byte));
    GIVES(0, byte);
    LEAVES(0x55663377, fast_read_mem_longword(2, 0x80000400));
    LEAVES(0xFFFFFFFF, fast_read_mem_longword(1, 0x80000400));
    LEAVES(0x3377, fast_read_mem_word(2, 0x80000400));
    LEAVES(0xFFFF, fast_read_mem_word(2, 0x80000401));
    LEAVES(0x77, fast_read_mem_byte(2, 0x80000400));
    LEAVES(0xFF, fast_read_mem_byte(3, 0x80000400));
}

/* B1's I/O window offers bytes alone, so its words and longwords are refused. */
static void test_io_bytes(void) {
    use_fresh();
    ALTERS(0, write_io_byte(2, 0x10F, 0x88));
    LEAVES(PCI_GENERAL_ERROR, write_io_byte(2, 0x110, 1));
    LEAVES(0, read_io_byte(2, 0x10F, &byte));
    GIVES(0x88, byte);
    LEAVES(PCI_GENERAL_ERROR, read_io_byte(2, 0x110, &byte));
    GIVES(0, byte);
    LEAVES(0x88, fast_read_io_byte(2, 0x10F));
    LEAVES(0xFF, fast_read_io_byte(2, 0x110));
    LEAVES(PCI_FUNC_NOT_SUPPORTED, write_io_word(2, 0x100, 1));
    LEAVES(PCI_FUNC_NOT_SUPPORTED, read_io_word(2, 0x100, &word));
    GIVES(0, word);
    LEAVES(0xFFFF, fast_read_io_word(2, 0x100));
    LEAVES(PCI_FUNC_NOT_SUPPORTED, write_io_longword(2, 0x100, 1));
    LEAVES(PCI_FUNC_NOT_SUPPORTED, read_io_longword(2, 0x100, &longword));
    GIVES(0, longword);
    LEAVES(0xFFFFFFFF, fast_read_io_longword(2, 0x100));
}

/* The same window, loaded with all widths: byte 2 of the entry of base register 1 of handle 2.
   Order 2 turns bytes. */
static void test_io_wide(void) {
    uint32_t place, sum_at = sizeof image - 1;
    image[544 + 512 + 4 + 2] += 6;
    image[sum_at] += 6;
    memset(cells, 0xAA, sizeof cells);
    GIVES(0, pci_load(&board, cells, sizeof cells, image, sizeof image, &place));
    image[544 + 512 + 4 + 2] -= 6;
    image[sum_at] -= 6;
    pci_use_board(&board, cells, sizeof cells);
    ALTERS(0, write_io_longword(2, 0x104, 0x11223344));
    LEAVES(0, read_io_longword(2, 0x104, &longword));
    GIVES(0x11223344, longword);
    LEAVES(0x44, fast_read_io_byte(2, 0x104));
    ALTERS(0, write_io_word(2, 0x106, 0x5566));
    LEAVES(0, read_io_word(2, 0x106, &word));
    GIVES(0x5566, word);
    LEAVES(0x55663344, fast_read_io_longword(2, 0x104));
    LEAVES(0x5566, fast_read_io_word(2, 0x106));
}

static void check_resource(const struct resource_descriptor *got, UWORD flags, ULONG start,
                           ULONG length) {
    GIVES(20, got->next);
    GIVES(flags, got->flags);
    GIVES(start, got->start);
    GIVES(length, got->length);
    GIVES(0x1000, got->offset);
    GIVES(0x2000, got->dmaoffset);
}

/* A driver of two cards may hold the descriptors of both. */
static void test_resources(void) {
    use_fresh();
    GIVES(20, sizeof(struct resource_descriptor));
    keep_state();
    intptr_t two = get_resource(2), one = get_resource(1);
    check_same(__FILE__, __LINE__, "get_resource");
    GIVES(1, one > 0 && two > 0 && one != two);
    const struct resource_descriptor *first = (const struct resource_descriptor *)one;
    const struct resource_descriptor *second = (const struct resource_descriptor *)two;
    GIVES(0x8701, first->flags);
    GIVES(0x80000000, first->start);
    GIVES(0, first->offset);
    check_resource(second, 0x0701, 0x80000400, 0x400);
    check_resource(second + 1, RSC_LAST | RSC_IO | FLG_8BIT | 2, 0x100, 0x10);
    LEAVES(PCI_BAD_HANDLE, get_resource(3));
    LEAVES(PCI_BAD_HANDLE, get_resource(PCI_DEVICE_NOT_FOUND));
    ALTERS(0, write_config_longword(2, 0x10, 0x90000000));
    LEAVES(two, get_resource(2));
    check_resource(second, 0x0701, 0x90000000, 0x400);
}

/* The hook with this index on line 5, with NULL for an index that is refused. */
static void check_hook(ULONG index, LONG number, LONG handle, pci_handler *routine,
                       void *parameter) {
    LONG got_handle = 9;
    pci_handler *got_routine = first_handler;
    void *got_parameter = &byte;
    LEAVES(number, pci_list_handlers(5, index, &got_handle, &got_routine, &got_parameter));
    GIVES(handle, got_handle);
    GIVES(1, got_routine == routine);
    GIVES(1, got_parameter == parameter);
}

static void test_hooks(void) {
    LONG one, two, three;
    use_fresh();
    ALTERS(0, hook_interrupt(2, second_handler, &two));
    ALTERS(0, hook_interrupt(1, first_handler, &one));
    LEAVES(PCI_SET_FAILED, hook_interrupt(2, first_handler, &three));
    LEAVES(PCI_BAD_HANDLE, hook_interrupt(18, first_handler, &three));
    check_hook(0, 0, 2, second_handler, &two);
    check_hook(1, 0, 1, first_handler, &one);
    check_hook(2, PCI_DEVICE_NOT_FOUND, 0, NULL, NULL);
    ALTERS(0, unhook_interrupt(2));
    LEAVES(PCI_GENERAL_ERROR, unhook_interrupt(2));
    LEAVES(PCI_BAD_HANDLE, unhook_interrupt(3));
    check_hook(0, 0, 1, first_handler, &one);
    check_hook(1, PCI_DEVICE_NOT_FOUND, 0, NULL, NULL);
    ALTERS(0, hook_interrupt(2, first_handler, &three));
    check_hook(0, 0, 1, first_handler, &one);
    check_hook(1, 0, 2, first_handler, &three);
    ALTERS(0, pci_reset(&board, cells, sizeof cells));
    check_hook(0, PCI_DEVICE_NOT_FOUND, 0, NULL, NULL);
    LEAVES(PCI_GENERAL_ERROR, unhook_interrupt(1));
    ALTERS(0, hook_interrupt(2, NULL, NULL));
    check_hook(0, 0, 2, NULL, NULL);
}

/* Hooks that were not made here, or before the board became the current one, have no pointers. */
static void test_foreign_hooks(void) {
    LONG one, two;
    pci_handler *routine;
    void *parameter;
    LONG handle = 9;
    use_fresh();
    ALTERS(0, hook_interrupt(1, first_handler, &one));
    ALTERS(0, pci_hook_interrupt(&board, 2, 1, 1));
    check_hook(0, 0, 1, first_handler, &one);
    check_hook(1, 0, 2, NULL, NULL);
    keep_state();
    pci_use_board(&board, cells, sizeof cells);
    check_same(__FILE__, __LINE__, "pci_use_board");
    check_hook(0, 0, 1, NULL, NULL);
    ALTERS(0, unhook_interrupt(2));
    ALTERS(0, hook_interrupt(2, second_handler, &two));
    check_hook(0, 0, 1, NULL, NULL);
    check_hook(1, 0, 2, second_handler, &two);
    LEAVES(PCI_GENERAL_ERROR, pci_list_handlers(16, 0, &handle, &routine, &parameter));
    GIVES(1, handle == 0 && routine == NULL && parameter == NULL);
}

/* A chain entry of a handle that no function has, with the number that this layer takes for its own
   hooks: on an altered board alone, and listed on line 0. */
static void test_hook_of_no_function(void) {
    LONG one, handle = 9;
    pci_handler *routine = first_handler;
    void *parameter = &byte;
    use_fresh();
    ALTERS(0, hook_interrupt(1, first_handler, &one));
    for (int i = 3; i < 6; i++)
        board.hooks[i] = 17;
    LEAVES(0, pci_list_handlers(0, 0, &handle, &routine, &parameter));
    GIVES(17, handle);
    GIVES(1, routine == NULL && parameter == NULL);
    check_hook(0, 0, 1, first_handler, &one);
}

/* As many hooks as there can be, and every one of them again. */
static void test_sixteen_hooks(void) {
    LONG parameters[17];
    uint32_t place;
    GIVES(0, pci_load(&board, cells, sizeof cells, sixteen, sizeof sixteen, &place));
    pci_use_board(&board, cells, sizeof cells);
    for (LONG handle = 16; handle >= 1; handle--)
        ALTERS(0, hook_interrupt(handle, first_handler, &parameters[handle]));
    LEAVES(PCI_BAD_HANDLE, hook_interrupt(17, second_handler, &parameters[0]));
    for (LONG handle = 16; handle >= 1; handle--)
        check_hook((ULONG)(16 - handle), 0, handle, first_handler, &parameters[handle]);
    for (LONG handle = 1; handle <= 16; handle++) {
        ALTERS(0, unhook_interrupt(handle));
        ALTERS(0, hook_interrupt(handle, second_handler, &parameters[handle - 1]));
    }
    for (LONG handle = 1; handle <= 16; handle++)
        check_hook((ULONG)(handle - 1), 0, handle, second_handler, &parameters[handle - 1]);
}

static void check_used(LONG handle, LONG status, pci_callback *callback) {
    pci_callback *got = second_callback;
    LEAVES(status, get_card_used(handle, &got));
    GIVES(1, got == callback);
}

static void test_used(void) {
    use_fresh();
    check_used(1, 0, NULL);
    ALTERS(0, set_card_used(1, first_callback));
    ALTERS(0, set_card_used(2, second_callback));
    LEAVES(PCI_BAD_HANDLE, set_card_used(17, second_callback));
    LEAVES(PCI_BAD_HANDLE, set_card_used(3, PCI_CARD_IN_USE));
    check_used(1, 2, first_callback);
    check_used(2, 2, second_callback);
    check_used(17, PCI_BAD_HANDLE, NULL);
    check_used(0, PCI_BAD_HANDLE, NULL);
    ALTERS(0, set_card_used(1, PCI_CARD_IN_USE));
    check_used(1, 1, NULL);
    ALTERS(0, set_card_used(1, PCI_CARD_TAKE_OVER));
    check_used(1, 3, NULL);
    ALTERS(0, set_card_used(1, PCI_CARD_FREE));
    check_used(1, 0, NULL);
    ALTERS(0, pci_reset(&board, cells, sizeof cells));
    check_used(2, 0, NULL);
}

/* A call-back that was not set here has no pointer, nor has a refusal, whatever other
   functions have. */
static void test_foreign_callbacks(void) {
    uint32_t place;
    GIVES(0, pci_load(&board, cells, sizeof cells, sixteen, sizeof sixteen, &place));
    pci_use_board(&board, cells, sizeof cells);
    ALTERS(0, set_card_used(1, first_callback));
    ALTERS(0, set_card_used(16, second_callback));
    ALTERS(0, pci_set_card_used(&board, 2, 2, 1));
    check_used(1, 2, first_callback);
    check_used(2, 2, NULL);
    check_used(16, 2, second_callback);
    check_used(0, PCI_BAD_HANDLE, NULL);
    check_used(17, PCI_BAD_HANDLE, NULL);
}

static void test_unsupported(void) {
    use_fresh();
    LEAVES(PCI_FUNC_NOT_SUPPORTED, special_cycle(0, 0));
    LEAVES(PCI_FUNC_NOT_SUPPORTED, get_routing());
    LEAVES(PCI_FUNC_NOT_SUPPORTED, set_interrupt());
}

/* Without a current board; `board` stays loaded and out of reach. */
static void test_no_board(void) {
    LEAVES(PCI_DEVICE_NOT_FOUND, find_pci_device(0x0000FFFF, 0));
    LEAVES(PCI_DEVICE_NOT_FOUND, find_pci_classcode(0x07000000, 0));
    LEAVES(PCI_BAD_HANDLE, read_config_longword(1, 0, &longword));
    GIVES(0, longword);
    LEAVES(0xFFFF, fast_read_config_word(1, 0));
    LEAVES(PCI_BAD_HANDLE, write_config_byte(1, 0x3C, 1));
    LEAVES(PCI_BAD_HANDLE, hook_interrupt(1, first_handler, NULL));
    LEAVES(PCI_BAD_HANDLE, unhook_interrupt(1));
    check_hook(0, PCI_DEVICE_NOT_FOUND, 0, NULL, NULL);
    LEAVES(PCI_FUNC_NOT_SUPPORTED, special_cycle(0, 0));
    LEAVES(PCI_BAD_HANDLE, get_resource(1));
    check_used(1, PCI_BAD_HANDLE, NULL);
    LEAVES(PCI_BAD_HANDLE, set_card_used(1, PCI_CARD_IN_USE));
    LEAVES(PCI_BAD_HANDLE, read_mem_byte(1, 0x80000000, &byte));
    LEAVES(PCI_BAD_HANDLE, write_io_byte(2, 0x100, 1));
    LEAVES(0xFF, fast_read_mem_byte(1, 0x80000000));
}

void test_driver(void) {
    load_fresh();
    test_no_board();
    test_searches();
    test_config_reads();
    test_config_writes();
    test_memory();
    test_io_bytes();
    test_io_wide();
    test_resources();
    test_hooks();
    test_foreign_hooks();
    test_hook_of_no_function();
    test_sixteen_hooks();
    test_used();
    test_foreign_callbacks();
    test_unsupported();
    pci_use_board(NULL, cells, sizeof cells);
    test_no_board();
    /* A board with cells that are too short, and with none. */
    pci_use_board(&board, cells, 2063);
    LEAVES(PCI_BUFFER_TOO_SMALL, write_mem_byte(1, 0x80000000, 1));
    pci_use_board(&board, NULL, 0);
    LEAVES(PCI_BUFFER_TOO_SMALL, read_mem_byte(1, 0x80000000, &byte));
    LEAVES(0xFF, fast_read_mem_byte(1, 0x80000000));
}
