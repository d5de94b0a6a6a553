/* Of the yardstick: the order of keys, and the check of the memory that every command begins with. */
#ifndef HAND_CHECK_H
#define HAND_CHECK_H

#include "hand_words.h"

struct head { uint32_t id, index, size, count, used; };
struct store { struct head h; uint32_t keymax, valuemax, maxkeys, total; uint8_t *half, *records, *values; };
struct wide { uint64_t high, low; };

static struct wide wide_at(const uint8_t *p) {
    struct wide w = { __builtin_bswap64(load64(p)), __builtin_bswap64(load64(p + 8)) };
    return w;
}

/* byte by byte, then by length */
static int below(struct wide a, uint32_t m, struct wide b, uint32_t n) {
    if (a.high != b.high) return a.high < b.high;
    if (a.low != b.low) return a.low < b.low;
    return m < n;
}

static int padded(struct wide w, uint32_t n) {
    if (n < 8) return w.low == 0 && (w.high << (8 * n)) == 0;
    return n == 16 || (w.low << (8 * (n - 8))) == 0;
}

static int all_zero(const uint8_t *p, size_t n) {
    uint8_t seen = 0; /* the compiler makes this loop wide */
    for (size_t i = 0; i < n; i++) seen |= p[i];
    return seen == 0;
}

static int permitted(uint32_t index, uint32_t id, uint64_t size) {
    return index > 15 ? 3 : id == 0 || id == 0xffffffff ? 4 : size == 0 || size > 65536 ? 5 : 0;
}

static uint32_t max_keys(uint32_t index) { return 1024u >> (2 * (index / 4)); }

/* one half of the head: whether its numbers may stand there */
static int read_half(struct store *s, const uint8_t *half) {
    struct head h = { load32(half), load32(half + 4), load32(half + 8), load32(half + 12), load32(half + 16) };
    if (permitted(h.index, h.id, h.size) || h.count > max_keys(h.index) || !all_zero(half + 20, 12)) return 0;
    s->h = h;
    s->keymax = 4 * (h.index % 4 + 1);
    s->valuemax = 64u << (2 * (h.index / 4));
    s->maxkeys = max_keys(h.index);
    s->half = (uint8_t *)half;
    return 1;
}

/* one namespace's records and values; a function of its own, so that its loop has the registers to itself */
__attribute__((noinline)) static int check_part(struct store *s) {
    uint32_t keymax = s->keymax, valuemax = s->valuemax, id = s->h.id, count = s->h.count, len = 0, total = 0, used = 0;
    const uint8_t *r = s->records;
    struct wide before = { 0, 0 };
    for (uint32_t j = 0; j < count; j++, r += 32) {
        struct wide w = wide_at(r);
        uint32_t k = load32(r + 16), v = load32(r + 24);
        if (k - 1 >= keymax || v > valuemax || load32(r + 20) != total || load32(r + 28) != id || !padded(w, k) || !below(before, len, w, k))
            return 0;
        before = w;
        len = k;
        total += v;
        used += k + v;
    }
    s->total = total;
    return used <= s->h.size && used == s->h.used && all_zero(r, 32 * (size_t)(s->maxkeys - count))
        && all_zero(s->values + total, s->h.size - total);
}

/* step a: how many namespaces there are, 0 where the memory is not legal, and the numbers that the other steps look at */
static int check(struct store s[2], const uint8_t *directory, size_t dlen, const uint8_t *values, size_t vlen) {
    if (dlen < 64) return 0;
    int n = load32(directory + 32) == 0 ? 1 : 2;
    if (n == 1 && !all_zero(directory + 32, 32)) return 0;
    size_t records = 64, room = 0;
    for (int i = 0; i < n; i++) {
        if (!read_half(s + i, directory + 32 * i)) return 0;
        s[i].records = (uint8_t *)directory + records;
        s[i].values = (uint8_t *)values + room;
        records += 32 * (size_t)s[i].maxkeys;
        room += s[i].h.size;
    }
    if ((n == 2 && s[0].h.id == s[1].h.id) || room > 65536 || dlen < records || vlen < room) return 0;
    return check_part(s) && (n == 1 || check_part(s + 1)) ? n : 0;
}

/* the namespace with that id, or a null pointer */
static struct store *named(struct store s[2], int n, uint32_t id) {
    return s[0].h.id == id ? s : n == 2 && s[1].h.id == id ? s + 1 : 0;
}

#endif
