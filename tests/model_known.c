/* The model of the look for a key, twice: over the bytes of any memory, and over the map where memory is legal. Numbers are the papers' own,
 * not the names of kv.h, so that a wrong name there is found too. */
#include "model_bytes.h"

/* ---- over the bytes */

static const uint64_t too_many = 1ull << 48; /* more slots than any slice has */

/* The slots that one half of the head asks for: none where it has no id, and too many where its numbers could not be served. */
static uint64_t slots(const uint8_t *half) {
    uint32_t index = get32(half + 4), size = get32(half + 8), count = get32(half + 12);
    if (get32(half) == 0) return 0;
    if (index > 15 || size < 1 || size > 65536 || count > model_max_keys(index)) return too_many;
    return model_max_keys(index);
}

static uint64_t room(const uint8_t *half) { return get32(half) == 0 ? 0 : get32(half + 8); }

/* a key and its length as one run of bytes that sorts as keys do */
static void as_bytes(uint8_t run[20], const uint8_t *key, size_t n, uint32_t len) {
    memset(run, 0, 16);
    memcpy(run, key, n);
    for (int i = 0; i < 4; i++) run[16 + i] = len >> (24 - 8 * i);
}

/* whether the key is found among n records of which the first stands at `from`: the one in the middle decides where to look on */
static uint32_t among(const uint8_t wanted[20], const uint8_t *directory, size_t from, uint32_t n, size_t places[11], uint32_t *looked) {
    if (n == 0) return 0;
    uint8_t there[20];
    size_t middle = from + 32 * (n / 2);
    places[(*looked)++] = middle;
    as_bytes(there, directory + middle, 16, get32(directory + middle + 16));
    int order = memcmp(wanted, there, 20);
    if (order < 0) return among(wanted, directory, from, n / 2, places, looked);
    return order == 0 || among(wanted, directory, middle + 32, n - n / 2 - 1, places, looked);
}

struct kv_look model_known(const uint8_t *key, size_t key_len, uint32_t id, const uint8_t *directory, size_t directory_len,
                           size_t values_len, size_t places[11]) {
    const uint8_t *second = directory + 32;
    if (key_len == 0 || key_len > 16) return (struct kv_look){15, 0, 0};
    if (directory_len < 64 || directory_len < 64 + 32 * (slots(directory) + slots(second))) return (struct kv_look){6, 0, 0};
    if (values_len < room(directory) + room(second)) return (struct kv_look){6, 0, 0};
    if (id == 0 || (id != get32(directory) && id != get32(second))) return (struct kv_look){23, 0, 0};
    uint8_t wanted[20];
    struct kv_look said = {0, 0, 0};
    as_bytes(wanted, key, key_len, key_len);
    if (id == get32(directory)) said.known = among(wanted, directory, 64, get32(directory + 12), places, &said.looked);
    else said.known = among(wanted, directory, 64 + 32 * slots(directory), get32(second + 12), places, &said.looked);
    return said;
}

/* ---- over the map */

/* how many of n keys are looked at for one that has `lower` of them below it: no key need be compared for that */
static uint32_t looks(uint32_t n, uint32_t lower, int present) {
    if (n == 0) return 0;
    if (lower > n / 2) return 1 + looks(n - n / 2 - 1, lower - n / 2 - 1, present);
    return lower == n / 2 && present ? 1 : 1 + looks(n / 2, lower, present);
}

struct kv_look model_known_held(struct model_store *m, const uint8_t *key, size_t key_len, uint32_t id) {
    if (key_len == 0 || key_len > 16) return (struct kv_look){15, 0, 0};
    const struct model_space *s = model_named(m, id);
    if (s == 0) return (struct kv_look){23, 0, 0};
    uint32_t lower = model_from(s, key, key_len);
    int present = lower < s->count && !below(key, key_len, s->pairs[lower].key, s->pairs[lower].key_len);
    return (struct kv_look){0, present, looks(s->count, lower, present)};
}
