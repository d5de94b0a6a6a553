/* Chance, and the namespaces among which it chooses. */
#include "fuzz.h"

uint64_t seed = 1, state;
uint32_t turn;

/* splitmix64 */
uint64_t next(void) {
    uint64_t z = state += 0x9e3779b97f4a7c15;
    z = (z ^ z >> 30) * 0xbf58476d1ce4e5b9;
    z = (z ^ z >> 27) * 0x94d049bb133111eb;
    return z ^ z >> 31;
}

uint32_t below(uint64_t n) { return next() % n; }

int one_in(uint32_t n) { return below(n) == 0; }

void rubbish(uint8_t *a, uint8_t *b, size_t n) {
    size_t i = 0;
    for (uint64_t z; i + 8 <= n; i += 8) z = next(), memcpy(a + i, &z, 8);
    for (; i < n; i++) a[i] = next();
    memcpy(b, a, n);
}

struct model_space *ours(void) { return held->spaces + turn; }

void take_turn(void) { turn = below(held->count); }

uint32_t stranger(void) {
    uint32_t id;
    do id = one_in(2) ? ours()->id ^ 1u << below(32) : one_in(2) ? 0 : 0xffffffff;
    while (model_named(held, id) != 0);
    return id;
}

uint32_t written_id(void) {
    uint32_t id;
    memcpy(&id, real.directory + 32 * below(2), 4);
    return id;
}
