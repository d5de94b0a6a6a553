/* The full stores whose calls have their stack measured: of the most keys and of the longest values, with one namespace and with two. */
#ifndef STACK_STORES_H
#define STACK_STORES_H

#include "kv.h"
#include "paint.h"

void *memcpy(void *, const void *, size_t);

enum { SIZE = 65536, DIRECTORY = 64 + 32 * 2048, PAGE = 4096, FIELDS = 512, KEY = 16, TAIL = 12, STORES = 4 };

static const char tail[TAIL + 1] = "EARTAG-CODES"; /* every key ends in it; nothing else has these bytes */

/* of each namespace: its format, its keys, which are all that the format allows, and the length of their values */
static const struct store {
    uint32_t namespaces, index, keys, value;
} stores[STORES] = {{1, 3, 1024, 64 - KEY}, {1, 15, 16, 4096 - KEY}, {2, 3, 1024, 32 - KEY}, {2, 15, 16, 2048 - KEY}};

/* what is lent to a call, and what it takes and gives beside that */
static uint8_t directory[DIRECTORY], values[SIZE], data[PAGE], entry[64], completion[16], page[PAGE], fields[FIELDS];
static struct lengths {
    size_t entry, completion, data, directory, values, page, key, fields, moved, memory;
} lent;
static const struct lengths whole = {64, 16, PAGE, DIRECTORY, SIZE, PAGE, KEY, FIELDS, SIZE, SIZE};
static struct asked {
    uint32_t index, id;
    uint64_t size;
} first, second;
static uint32_t farm = 1, ordinal, number; /* the namespace named, the key or format asked for of a page, the number given */
static uint8_t opcode, wanted[KEY + 1]; /* the key looked for */
static uint32_t looked;                 /* the most records that it was compared with */

static void format(void) { number = kv_format(first.index, first.id, first.size, directory, lent.directory, values, lent.values); }
static void format_two(void) {
    number = kv_format_two(first.index, first.id, first.size, second.index, second.id, second.size, directory, lent.directory, values,
                           lent.values);
}
static void format_fields(void) {
    memcpy(fields, &first.size, 8);
    fields[31] = 0xf0 | first.index;
    number = kv_format_fields(fields, lent.fields, first.id, directory, lent.directory, values, lent.values);
}
static void command(void) {
    number = kv_command(entry, lent.entry, completion, lent.completion, data, lent.data, directory, lent.directory, values,
                        lent.values, 1, 1, 1);
}
static void used(void) { number = kv_used(farm, directory, lent.directory, values, lent.values).number; }
static void identify(void) { number = kv_identify(page, lent.page, farm, directory, lent.directory, values, lent.values); }
static void known(void) {
    struct kv_look said = kv_known(wanted, lent.key, farm, directory, lent.directory, values, lent.values);
    number = said.number;
    if (said.looked > looked) looked = said.looked;
}
static void build(void) { number = kv_build(entry, lent.entry, opcode, 1, 1, (const uint8_t *)"0123456789abcdefg", lent.key, 4, 0); }
static void read_completion(void) { number = kv_read_completion(completion, lent.completion).number; }
static void read_page(void) { number = kv_read_page(page, lent.page, ordinal).number; }
static void read_identify(void) { number = kv_read_identify(page, lent.page, ordinal).number; }

/* a command on key i of a namespace, and a data buffer for it */
static void prepare(int code, const struct store *s, uint32_t i) {
    uint32_t high = __builtin_bswap32(i * 4194301u), amount = code == KV_LIST ? PAGE : s->value;
    memset(data, i, PAGE);
    memset(entry, 0, sizeof entry);
    entry[0] = code;
    entry[4] = farm;
    memcpy(entry + 8, &high, 4);
    memcpy(entry + 12, tail, 4);
    memcpy(entry + 56, tail + 4, 8);
    memcpy(entry + 40, &amount, 4);
    entry[44] = KEY;
}

static uint8_t kept_directory[DIRECTORY], kept_values[SIZE];

static void put_back(void) {
    memcpy(directory, kept_directory, DIRECTORY);
    memcpy(values, kept_values, SIZE);
}

/* all keys of a store, or all but the last of each namespace so that a new one finds room */
static void fill(const struct store *s, uint32_t missing) {
    first = (struct asked){s->index, 1, SIZE / s->namespaces};
    second = (struct asked){s->index, 2, SIZE / s->namespaces};
    if (s->namespaces == 1) format();
    else format_two();
    for (farm = 1; farm <= s->namespaces; farm++) {
        for (uint32_t i = 0; i + missing < s->keys; i++) {
            prepare(KV_STORE, s, i);
            command();
        }
    }
    farm = 1;
    memcpy(kept_directory, directory, DIRECTORY);
    memcpy(kept_values, values, SIZE);
}

/* a bit of each byte of the head and of the first, middle and last record of each namespace, one after another; past these none */
static int damage(const struct store *s, uint32_t i) {
    uint32_t record = i < 64 ? 0 : (i - 64) / 32, slot = record / 3 * s->keys + record % 3 * (s->keys - 1) / 2;
    put_back();
    if (i >= 64 + s->namespaces * 3 * 32) return 0;
    directory[i < 64 ? i : 64 + 32 * slot + i % 32] ^= 1 << i % 8;
    return 1;
}

#endif
