/* What the model's files share: numbers in bytes, completions, runs of zeros, the order of keys, the opcodes. Its own, and nobody else's. */
#ifndef MODEL_BYTES_H
#define MODEL_BYTES_H

#include "model.h"

void *memcpy(void *, const void *, size_t);
void *memmove(void *, const void *, size_t);
void *memset(void *, int, size_t);
int memcmp(const void *, const void *, size_t);

enum { STORE = 0x01, RETRIEVE = 0x02, LIST = 0x06, DELETE = 0x10, EXIST = 0x14 };

static inline uint32_t get16(const uint8_t *p) { return p[0] + 256u * p[1]; }

static inline uint32_t get32(const uint8_t *p) { return get16(p) + 65536u * get16(p + 2); }

static inline void put16(uint8_t *p, uint32_t n) {
    p[0] = n % 256;
    p[1] = n / 256 % 256;
}

static inline void put32(uint8_t *p, uint32_t n) {
    put16(p, n % 65536);
    put16(p + 2, n / 65536);
}

static inline void put_completion(uint8_t *completion, const uint8_t *entry, uint32_t dword0, uint32_t status, uint16_t head, uint16_t queue,
                                  uint16_t phase) {
    put32(completion, dword0);
    put32(completion + 4, 0);
    put16(completion + 8, head);
    put16(completion + 10, queue);
    memcpy(completion + 12, entry + 2, 2);
    put16(completion + 14, phase % 2 + 2 * status);
}

static inline int zeros(const uint8_t *p, size_t n) {
    uint8_t any = 0; /* no early way out: the compiler makes wide steps of this */
    for (size_t i = 0; i < n; i++) any |= p[i];
    return any == 0;
}

static inline int one_of_five(uint8_t opcode) {
    return opcode == STORE || opcode == RETRIEVE || opcode == LIST || opcode == DELETE || opcode == EXIST;
}

/* the order of keys: the first byte that differs decides, and where none does the shorter key is the lower */
static inline int below(const uint8_t *a, uint32_t a_len, const uint8_t *b, uint32_t b_len) {
    for (uint32_t i = 0; i < a_len && i < b_len; i++)
        if (a[i] != b[i]) return a[i] < b[i];
    return a_len < b_len;
}

/* an entry of a List page, with its length and its filling */
static inline uint32_t entry_len_of(uint32_t key_len) { return (2 + key_len + 3) / 4 * 4; }

#endif
