/* Of the yardsticks: words of two, four and eight bytes, the lowest first. */
#ifndef HAND_WORDS_H
#define HAND_WORDS_H

#include "../include/kv.h"

/* the compiler's own, so that a load of four bytes is one instruction */
#define memcpy __builtin_memcpy
#define memmove __builtin_memmove
#define memset __builtin_memset

static uint32_t load32(const uint8_t *p) { uint32_t x; memcpy(&x, p, 4); return x; }
static uint64_t load64(const uint8_t *p) { uint64_t x; memcpy(&x, p, 8); return x; }
static uint16_t load16(const uint8_t *p) { uint16_t x; memcpy(&x, p, 2); return x; }
static void save32(uint8_t *p, uint32_t x) { memcpy(p, &x, 4); }
static void save16(uint8_t *p, uint16_t x) { memcpy(p, &x, 2); }

#endif
