/*
 * A device model as an emulator has it: callbacks for its three spaces, a tick, and a snapshot. The
 * callbacks have the shape that emulators give them: what was registered with them, the address in
 * the space, and 1, 2 or 4 bytes.
 */
#ifndef DEVICE_H
#define DEVICE_H

#include "sedgecoil.h"

typedef struct device {
    sedgecoil_file file;
} device;

/* The chip at power-on: 0, or 2 for a chip that is none. */
uint32_t device_reset(device *d, uint8_t chip);

/*
 * An access is cut as the bus cuts it: the ports are bytes; in the other spaces a register has one
 * byte or two. Bytes that nothing answers read as ones, and a write of them is dropped.
 */
uint32_t device_config_read(void *opaque, uint64_t address, unsigned size);
void device_config_write(void *opaque, uint64_t address, uint32_t value, unsigned size);
uint32_t device_port_read(void *opaque, uint64_t address, unsigned size);
void device_port_write(void *opaque, uint64_t address, uint32_t value, unsigned size);
uint32_t device_mmio_read(void *opaque, uint64_t address, unsigned size);
void device_mmio_write(void *opaque, uint64_t address, uint32_t value, unsigned size);

/* So many scanlines pass. */
void device_tick(device *d, uint32_t lines);

/* A snapshot of SEDGECOIL_IMAGE bytes, and back from one: 0, or the code of the refusal. */
uint32_t device_save(const device *d, uint8_t image[SEDGECOIL_IMAGE]);
uint32_t device_load(device *d, const uint8_t *image, size_t length);

#endif
