/* The yardstick: the module as a careful hand would write it in C, for the same header and the same memory. It is compared with the
 * proved module, never shipped. */
#include "hand_check.h"

/* the first slot whose key is not below the given one */
static uint32_t find(const struct store *s, struct wide w, uint32_t len, int *held) {
    uint32_t low = 0, high = s->h.count;
    while (low < high) {
        uint32_t middle = (low + high) / 2;
        const uint8_t *r = s->records + 32 * middle;
        if (below(wide_at(r), load32(r + 16), w, len)) low = middle + 1;
        else high = middle;
    }
    *held = 0;
    if (low < s->h.count) {
        struct wide x = wide_at(s->records + 32 * low);
        *held = x.high == w.high && x.low == w.low && load32(s->records + 32 * low + 16) == len;
    }
    return low;
}

static void raise(struct store *s, uint32_t from, uint32_t by) {
    for (uint32_t j = from; j < s->h.count; j++) save32(s->records + 32 * j + 20, load32(s->records + 32 * j + 20) + by);
}

static void erase(struct store *s, uint32_t slot) {
    uint8_t *r = s->records + 32 * slot;
    uint32_t place = load32(r + 20), v = load32(r + 24);
    s->h.used -= load32(r + 16) + v;
    memmove(s->values + place, s->values + place + v, s->total - place - v);
    memset(s->values + s->total - v, 0, v);
    memmove(r, r + 32, 32 * (s->h.count - slot - 1));
    memset(s->records + 32 * (s->h.count - 1), 0, 32);
    s->h.count--;
    s->total -= v;
    raise(s, slot, -v);
}

static void insert(struct store *s, uint32_t slot, const uint8_t *e, uint32_t len, const uint8_t *value, uint32_t v) {
    uint8_t *r = s->records + 32 * slot;
    uint32_t place = slot < s->h.count ? load32(r + 20) : s->total;
    memmove(s->values + place + v, s->values + place, s->total - place);
    memcpy(s->values + place, value, v);
    memmove(r + 32, r, 32 * (s->h.count - slot));
    memcpy(r, e + 8, 8);
    memcpy(r + 8, e + 56, 8);
    save32(r + 16, len);
    save32(r + 20, place);
    save32(r + 24, v);
    save32(r + 28, s->h.id);
    s->h.count++;
    s->h.used += len + v;
    s->total += v;
    raise(s, slot + 1, v);
}

/* the numbers that a Store or Delete has changed */
static void save_counts(const struct store *s) {
    save32(s->half + 12, s->h.count);
    save32(s->half + 16, s->h.used);
}

static void list(const struct store *s, uint32_t slot, uint8_t *data, uint32_t size) {
    uint32_t n = 0, at = 4;
    for (; slot < s->h.count; slot++, n++) {
        const uint8_t *r = s->records + 32 * slot;
        uint32_t k = load32(r + 16), need = (k + 5) / 4 * 4;
        if (size - at < need) break;
        save16(data + at, k);
        memcpy(data + at + 2, r, k);
        memset(data + at + 2 + k, 0, need - 2 - k);
        at += need;
    }
    save32(data, n);
}

static void save_head(uint8_t *half, uint32_t index, uint32_t id, uint32_t size) {
    save32(half, id);
    save32(half + 4, index);
    save32(half + 8, size);
}

uint32_t kv_format(uint32_t index, uint32_t id, uint64_t size, uint8_t *directory, size_t dlen, uint8_t *values, size_t vlen) {
    int number = permitted(index, id, size);
    if (number) return number;
    size_t need = 64 + 32 * (size_t)max_keys(index);
    if (dlen < need || vlen < size) return 6;
    memset(directory, 0, need);
    memset(values, 0, size);
    save_head(directory, index, id, size);
    return 0;
}

uint32_t kv_format_two(uint32_t index1, uint32_t id1, uint64_t size1, uint32_t index2, uint32_t id2, uint64_t size2, uint8_t *directory,
                       size_t dlen, uint8_t *values, size_t vlen) {
    int first = permitted(index1, id1, size1), second = first ? first : permitted(index2, id2, size2);
    if (second) return second;
    if (id1 == id2) return 19;
    if (size1 + size2 > 65536) return 5;
    size_t need = 64 + 32 * (size_t)(max_keys(index1) + max_keys(index2));
    if (dlen < need || vlen < size1 + size2) return 6;
    memset(directory, 0, need);
    memset(values, 0, size1 + size2);
    save_head(directory, index1, id1, size1);
    save_head(directory + 32, index2, id2, size2);
    return 0;
}

static int step(const uint8_t *e, uint8_t *data, size_t data_len, uint8_t *directory, size_t dlen, uint8_t *values, size_t vlen,
                uint32_t *dword0) {
    struct store both[2], *s;
    int n = check(both, directory, dlen, values, vlen);
    if (n == 0) return 0x06;
    uint8_t op = e[0], len = e[44], options = e[45];
    uint32_t amount = load32(e + 40);
    int store = op == 1, retrieve = op == 2, lists = op == 6, delete = op == 0x10, exist = op == 0x14;
    if (!(store | retrieve | lists | delete | exist)) return 0x01;
    if (e[1] & 3) return 0x02;
    if (!(s = named(both, n, load32(e + 4)))) return 0x0b;
    if (len > 16) return 0x02;
    struct wide key = { __builtin_bswap64(load64(e + 8)), __builtin_bswap64(load64(e + 56)) };
    if (!padded(key, len)) return 0x02;
    if (len > s->keymax || (len == 0 && !lists)) return 0x86;
    if (store && amount > s->valuemax) return 0x85;
    if (lists && amount < 4) return 0x02;
    if ((store | retrieve | lists) && data_len < amount) return 0x04;
    int held;
    uint32_t slot = find(s, key, len, &held);
    if (!held && (retrieve | delete | exist | (store && options & 1))) return 0x87;
    if (held && store && options & 2) return 0x89;
    uint32_t old = held ? len + load32(s->records + 32 * slot + 24) : 0;
    if (store && ((!held && s->h.count >= s->maxkeys) || (uint64_t)s->h.used - old + len + amount > s->h.size)) return 0x81;
    if (store) {
        if (held) erase(s, slot);
        insert(s, slot, e, len, data, amount);
        save_counts(s);
    } else if (retrieve) {
        uint32_t v = load32(s->records + 32 * slot + 24);
        memcpy(data, s->values + load32(s->records + 32 * slot + 20), v < amount ? v : amount);
        *dword0 = v;
    } else if (lists) {
        list(s, slot, data, amount);
    } else if (delete) {
        erase(s, slot);
        save_counts(s);
    }
    return 0;
}

uint32_t kv_command(const uint8_t *entry, size_t entry_len, uint8_t *completion, size_t completion_len, uint8_t *data,
                    size_t data_len, uint8_t *directory, size_t directory_len, uint8_t *values, size_t values_len, uint16_t head,
                    uint16_t queue, uint16_t phase) {
    if (entry_len != 64) return 1;
    if (completion_len != 16) return 2;
    uint32_t dword0 = 0;
    int status = step(entry, data, data_len, directory, directory_len, values, values_len, &dword0);
    save32(completion, dword0);
    save32(completion + 4, 0);
    save16(completion + 8, head);
    save16(completion + 10, queue);
    save16(completion + 12, load16(entry + 2));
    save16(completion + 14, (phase & 1) | status << 1);
    return 0;
}

struct kv_room kv_used(uint32_t id, const uint8_t *directory, size_t directory_len, const uint8_t *values, size_t values_len) {
    struct store both[2], *s;
    int n = check(both, directory, directory_len, values, values_len);
    if (n == 0) return (struct kv_room){ 18, 0, 0 };
    if (!(s = named(both, n, id))) return (struct kv_room){ 23, 0, 0 };
    return (struct kv_room){ 0, s->h.used, s->h.count };
}

uint32_t kv_identify(uint8_t *page, size_t page_len, uint32_t id, const uint8_t *directory, size_t directory_len, const uint8_t *values,
                     size_t values_len) {
    struct store both[2], *s;
    if (page_len != 4096) return 14;
    int n = check(both, directory, directory_len, values, values_len);
    if (n == 0) return 18;
    if (!(s = named(both, n, id))) return 23;
    memset(page, 0, 4096);
    save32(page, s->h.size);
    save32(page + 16, s->h.used);
    page[25] = 15;
    page[29] = s->h.index;
    for (uint32_t i = 0; i < 16; i++) {
        uint8_t *d = page + 72 + 16 * i;
        save16(d, 4 * (i % 4 + 1));
        save32(d + 4, 64u << (2 * (i / 4)));
        save32(d + 8, max_keys(i));
    }
    return 0;
}

/* a key of 1 to 16 bytes, zeros behind it: wide loads that overlap, none of them past the key */
static struct wide wide_of(const uint8_t *key, size_t len) {
    struct wide w = { 0, 0 };
    if (len >= 8) {
        w.high = __builtin_bswap64(load64(key));
        if (len > 8) w.low = __builtin_bswap64(load64(key + len - 8)) << (8 * (16 - len));
    } else if (len >= 4) {
        uint64_t front = __builtin_bswap32(load32(key)), back = __builtin_bswap32(load32(key + len - 4));
        w.high = front << 32 | back << (8 * (8 - len));
    } else {
        w.high = (uint64_t)key[0] << 56 | (uint64_t)key[len / 2] << (56 - 8 * (len / 2)) | (uint64_t)key[len - 1] << (64 - 8 * len);
    }
    return w;
}

/* what a half of the head needs: its slots, and its size on top of `room`; more slots than there can be where a search may not go by it */
static inline uint64_t needs(const uint8_t *half, uint64_t *room) {
    if (load32(half) == 0) return 0;
    uint32_t index = load32(half + 4), size = load32(half + 8);
    if (index > 15 || size - 1 > 65535 || load32(half + 12) > max_keys(index)) return 1ull << 57;
    *room += size;
    return max_keys(index);
}

struct kv_look kv_known(const uint8_t *key, size_t key_len, uint32_t id, const uint8_t *directory, size_t directory_len,
                        const uint8_t *values, size_t values_len) {
    (void)values;
    if (key_len - 1 > 15) return (struct kv_look){ 15, 0, 0 };
    if (directory_len < 64) return (struct kv_look){ 6, 0, 0 };
    uint64_t room = 0, first = needs(directory, &room), second = needs(directory + 32, &room);
    if (directory_len < 64 + 32 * (first + second) || values_len < room) return (struct kv_look){ 6, 0, 0 };
    const uint8_t *half = directory, *low = directory + 64;
    if (load32(half) != id) half += 32, low += 32 * first;
    if (id == 0 || load32(half) != id) return (struct kv_look){ 23, 0, 0 };
    struct wide w = wide_of(key, key_len);
    uint32_t looked = 0;
    for (size_t left = load32(half + 12), rest; left > 0; left = rest) {
        rest = left / 2;
        const uint8_t *middle = low + 32 * rest;
        struct wide x = wide_at(middle);
        looked++;
        if (w.high < x.high) continue;
        if (w.high == x.high) {
            uint32_t len = load32(middle + 16);
            if (w.low == x.low && key_len == len) return (struct kv_look){ 0, 1, looked };
            if (below(w, key_len, x, len)) continue;
        }
        low = middle + 32;
        rest = left - rest - 1;
    }
    return (struct kv_look){ 0, 0, looked };
}
