/* The calls of by_width.c for draft 1.9. */
#define PCI_DRIVER_EDITION 1
#include "by_width.c"
