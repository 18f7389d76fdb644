/* The functions of the proved library, crates/bios/out/libbios.a, as C calls them: a prototype for
   each export of crates/bios/src, file by file in the order of its lib.rt. Programs use pci_bios.h;
   only pci_bios.c and the tests' rerun.c call these.

   They stand apart because they are written by hand and must agree with the exports, so that the
   two can be read side by side. The linker compares names alone. Of the rest pci_load compares the
   lengths of a board's parts, which bios_part_bytes gives, and the tests in host/tests call every
   function and compare its answers. tests/exports declares the same functions for Rust, also by
   hand, for the comparison with the second implementation.

   A slice of the exports is a pointer and a length here; an array, or a number that is written, is
   a pointer. None is NULL, not even with length 0, and what they point to does not overlap. */
#ifndef BIOS_LIBRARY_H
#define BIOS_LIBRARY_H

#include <stddef.h>
#include <stdint.h>

/* ---- Searches and configuration (config_exports.rt) ---- */

int32_t bios_find_pci_device(const uint32_t *header, const uint8_t *registers, uint32_t id,
                             uint32_t index, uint32_t edition);
int32_t bios_find_pci_classcode(const uint32_t *header, const uint8_t *registers,
                                uint32_t class_code, uint32_t index, uint32_t edition);
int32_t bios_read_config(const uint32_t *header, const uint8_t *registers, uint32_t width,
                         uint32_t handle, uint8_t reg, uint32_t *value);
uint32_t bios_fast_read_config(const uint32_t *header, const uint8_t *registers, uint32_t width,
                               uint32_t handle, uint8_t reg, uint32_t *fault);
int32_t bios_write_config(const uint32_t *header, const uint8_t *records, uint8_t *registers,
                          uint64_t *windows, uint32_t width, uint32_t handle, uint8_t reg,
                          uint32_t value);

/* ---- Data and the conversion of addresses (data_exports.rt) ---- */

int32_t bios_read_data(const uint32_t *header, const uint8_t *records, const uint64_t *windows,
                       const uint32_t *cell_offsets, const uint8_t *cells, size_t cells_length,
                       uint32_t io, uint32_t width, uint32_t handle, uint32_t address,
                       uint32_t edition, uint32_t *value);
uint32_t bios_fast_read_data(const uint32_t *header, const uint8_t *records,
                             const uint64_t *windows, const uint32_t *cell_offsets,
                             const uint8_t *cells, size_t cells_length, uint32_t io, uint32_t width,
                             uint32_t handle, uint32_t address, uint32_t edition, uint32_t *fault);
int32_t bios_write_data(const uint32_t *header, const uint8_t *records, const uint64_t *windows,
                        const uint32_t *cell_offsets, uint8_t *cells, size_t cells_length,
                        uint32_t io, uint32_t width, uint32_t handle, uint32_t address,
                        uint32_t value, uint32_t edition);
int32_t bios_bus_to_cpu(const uint32_t *header, const uint8_t *records, uint32_t handle,
                        uint32_t address, uint32_t *cpu);
int32_t bios_cpu_to_bus(const uint32_t *header, const uint8_t *records, uint32_t handle,
                        uint32_t address, uint32_t *bus);

/* ---- Image, load, reset, window listing (exports.rt) ---- */

int32_t bios_check_image(const uint8_t *image, size_t length, size_t room, uint32_t *place);
int32_t bios_load(const uint8_t *image, size_t length, uint32_t *header, uint8_t *records,
                  uint8_t *registers, uint64_t *windows, uint32_t *cell_offsets, uint32_t *hooks,
                  uint32_t *used, uint8_t *cells, size_t cells_length, uint32_t *place);
int32_t bios_reset(const uint32_t *header, const uint8_t *records, uint8_t *registers,
                   uint64_t *windows, const uint32_t *cell_offsets, uint32_t *hooks, uint32_t *used,
                   uint8_t *cells, size_t cells_length);
uint32_t bios_write_image(const uint32_t *header, const uint8_t *records, uint8_t *out,
                          size_t length);
int32_t bios_list_window(const uint64_t *windows, uint32_t n, uint64_t *values);

/* ---- Interrupts, used marks, the calls that always give -2 (interrupt_exports.rt) ---- */

int32_t bios_hook_interrupt(const uint32_t *header, const uint8_t *records, uint32_t *hooks,
                            uint32_t handle, uint32_t handler, uint32_t parameter);
int32_t bios_unhook_interrupt(const uint32_t *header, uint32_t *hooks, uint32_t handle);
int32_t bios_list_chain(const uint8_t *records, const uint32_t *hooks, uint32_t line,
                        uint32_t index, uint64_t *values);
int32_t bios_get_card_used(const uint32_t *header, const uint32_t *used, uint32_t handle,
                           uint32_t *mark, uint32_t *call_back);
int32_t bios_set_card_used(const uint32_t *header, uint32_t *used, uint32_t handle, uint32_t mark,
                           uint32_t call_back);
int32_t bios_special_cycle(uint8_t bus, uint32_t message);
int32_t bios_get_routing(uint32_t handle);
int32_t bios_set_interrupt(uint32_t handle, uint32_t mode);

/* ---- Layout of a board (layout_exports.rt) ---- */

uint64_t bios_part_bytes(uint32_t part);

/* ---- Descriptors (resource_exports.rt) ---- */

int32_t bios_get_resource(const uint32_t *header, const uint8_t *records, const uint8_t *registers,
                          const uint64_t *windows, uint32_t handle, uint8_t *out, size_t length);
uint32_t bios_descriptor_step(const uint8_t *bytes, size_t length, size_t at, uint32_t *fields,
                              size_t *following);

/* ---- Scripts (script_exports.rt) ---- */

size_t bios_run_script(uint8_t *script, size_t length, uint32_t *header, uint8_t *records,
                       uint8_t *registers, uint64_t *windows, uint32_t *cell_offsets,
                       uint32_t *hooks, uint32_t *used, uint8_t *cells, size_t cells_length);

#endif
