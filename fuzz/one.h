/* What a harness has: its slices, made once, and what it does with one input. */
#ifndef ONE_H
#define ONE_H

#include <stddef.h>
#include <stdint.h>

void begin(void);
void one(const uint8_t *bytes, size_t len);

#endif
