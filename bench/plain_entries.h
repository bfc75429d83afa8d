// The plain C twin as bench/lent.c calls it.
#ifndef PLAIN_ENTRIES_H
#define PLAIN_ENTRIES_H

#include <stdint.h>

struct plain {
    uint8_t bytes[256];
    uint8_t closed[3];
    uint8_t busy;
};

void plain_platform_reset(struct plain *p);
void plain_end_signal(struct plain *p);
int plain_write(struct plain *p, unsigned offset, unsigned lanes, uint32_t value);
int plain_read(const struct plain *p, unsigned offset, unsigned lanes, uint32_t *value);

#endif
