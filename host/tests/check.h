/* Checks of the tests in C: a line for each that fails. Boards and cells are one set, kept
   beside for comparison. */
#ifndef CHECK_H
#define CHECK_H

#include "pci_bios.h"
#include "pci_record.h"

extern struct pci_board board;
extern uint8_t cells[65536];

/* B1's image, with the offset 1000h and the dmaoffset 2000h for handle 2 so that no two fields
   of it are equal. */
extern uint8_t image[1100];

/* A board of 16 functions, each as handle 1 of B1. */
extern uint8_t sixteen[16 * 544 + 12];

/* The editions of calls. */
#define DRAFT PCI_DRAFT_1_9
#define LATER PCI_LATER_TEXT

/* The number that a call gives. */
#define GIVES(wanted, call) check(__FILE__, __LINE__, #call, wanted, (int64_t)(call))

/* The same, and the call leaves board and cells as they were. */
#define LEAVES(wanted, call) \
    (keep_state(), GIVES(wanted, call), check_same(__FILE__, __LINE__, #call))

/* The same, and the call changes board or cells. */
#define ALTERS(wanted, call) \
    (keep_state(), GIVES(wanted, call), check_altered(__FILE__, __LINE__, #call))

void check(const char *file, int line, const char *what, int64_t wanted, int64_t got);
void check_same(const char *file, int line, const char *what);
void check_altered(const char *file, int line, const char *what);
void keep_state(void);

/* Loads the image; the cells are filled with AAh before, so that those past the total
   are not zero. */
void load_fresh(void);

/* A number of an image, high byte first. */
void put_long(uint8_t *at, uint32_t value);

/* A trailer after so many records, which document 01 puts at the image's end. */
void put_trailer(uint8_t *records, uint32_t number);

/* A recorder that keeps the last call it is told of. */
extern const struct pci_recorder keeper;
extern struct pci_call told;

void test_bios(void);
void test_editions(void);
void test_driver(void);
void test_draft(void);
void test_cookie(void);
void test_status(void);
void test_passed_on(void);
void test_orders(void);
void test_altered(void);
void test_trace(void);
void test_trace_refused(void);

/* The traces that host/examples/incident.c and two_drivers.c left in a file. */
void test_incident(const char *path);
void test_two_drivers(const char *path);

#endif
