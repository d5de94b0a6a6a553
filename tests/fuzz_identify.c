/* Identify pages: those of the memory as it is, damaged memory among it, read again; pages of other devices; and formattings by
 * fields. */
#include "fuzz.h"

enum { PAGE = 4096, FIELDS = 512, FIRST = 72, EACH = 16, FIT = (PAGE - FIRST) / EACH }; /* FIT descriptors have room on a page */

static uint8_t page[PAGE + SPARE], expected[PAGE + SPARE], fields[FIELDS + SPARE], kept[FIELDS + SPARE];

/* pages, of a namespace alone, of the first and of the second of two: without keys and with; of two those where the other has
 * other used room; those of memory that damage left legal; and the formats that a namespace had, a bit each */
static uint64_t shown[3][2], apart[2], spared, indices;
/* refused: 14 with nothing else wrong, with an id of none, with memory that is not legal; 18 for slices that are too short, for
 * damage; 23 for 0, for FFFFFFFFh, for another id, of one namespace and of two */
static uint64_t early[3], illegal[2], unheld[2][3];
/* pages read: ours; others at a descriptor, at the last that has room, behind the formats, and within them behind the page's end;
 * with bits above the index, with more than 32 bits of size and used room; and wrong lengths */
static uint64_t own, given, last, behind, past, bits, wide, cut;
/* by fields, the numbers; 5 for sizes that are right but for the upper four bytes; what followed a 14; bits above the index */
static uint64_t done[7], high, ahead[7], above;

size_t off(size_t right) {
    size_t n = one_in(2) ? right - 1 + 2 * below(2) : one_in(3) ? 0 : below(right + SPARE);
    return n == right ? 0 : n;
}

/* ---- the calls */

static uint32_t identify(size_t len, uint32_t id, size_t dlen, size_t vlen) {
    calls++;
    doing = "kv_identify";
    rubbish(page, expected, sizeof page);
    uint32_t got = kv_identify(lent(page, len), len, id, lent(real.directory, dlen), dlen, lent(real.values, vlen), vlen);
    called(got, model_identify(expected, len, id, model.directory, dlen, model.values, vlen));
    bytes("Identify page", page, expected, sizeof page);
    return got;
}

static struct kv_identity read_identify(size_t len, uint32_t ordinal) {
    calls++;
    doing = "kv_read_identify";
    memcpy(expected, page, sizeof page);
    struct kv_identity a = kv_read_identify(lent(page, len), len, ordinal), b = model_read_identify(expected, len, ordinal);
    numbered(a.number, b.number);
    number("formats", a.formats, b.formats);
    number("format index", a.index, b.index);
    number("longest key", a.keymax, b.keymax);
    number("longest value", a.valuemax, b.valuemax);
    number("most keys", a.maxkeys, b.maxkeys);
    number("size", a.size, b.size);
    number("used room", a.used, b.used);
    bytes("page read", page, expected, sizeof page);
    return a;
}

static uint32_t by_fields(size_t len, uint32_t id, uint8_t *d, size_t dlen, uint8_t *v, size_t vlen) {
    memcpy(kept, fields, sizeof fields);
    uint32_t got = kv_format_fields(lent(fields, len), len, id, d, dlen, v, vlen);
    called(got, model_format_fields(kept, len, id, model.directory, dlen, model.values, vlen));
    bytes("fields", fields, kept, sizeof fields);
    return got;
}

/* ---- formatting by fields */

/* before the fields that were asked for, every other time two that are refused: of a wrong length, whatever else is wrong, and
 * with a bit in the upper four bytes of the size */
uint32_t format_fields(const struct asked *a, uint8_t *d, size_t dlen, uint8_t *v, size_t vlen) {
    uint32_t before = one_in(2), low = a->size;
    doing = "kv_format_fields";
    rubbish(fields, kept, sizeof fields);
    memcpy(fields, &a->size, 8);
    fields[31] = (fields[31] & 0xf0) | a->index;
    if (before) {
        calls += 2;
        number("fields of a wrong length", by_fields(off(FIELDS), a->id, d, dlen, v, vlen), 14);
        fields[4 + below(4)] |= 1 << below(8);
        high += by_fields(FIELDS, a->id, d, dlen, v, vlen) == 5 && low >= 1 && low <= 65536;
        memcpy(fields, &a->size, 8);
    }
    uint32_t got = by_fields(FIELDS, a->id, d, dlen, v, vlen);
    done[got]++;
    ahead[got] += before;
    above += fields[31] > 15;
    return got;
}

/* ---- pages */

/* what stands on a page of ours, at every ordinal that it has and at some that it has not */
static void read_again(const struct model_space *s, uint32_t used) {
    static const uint32_t far[] = {FIT - 1, FIT, 255, 256, 0xffffffff};
    for (uint32_t i = 0; i < 27; i++) {
        uint32_t ordinal = i <= 20 ? i : i < 26 ? far[i - 21] : (uint32_t)next();
        struct kv_identity r = read_identify(PAGE, ordinal);
        number("ours: formats", r.formats, 16);
        number("ours: index", r.index, s->index);
        number("ours: size", r.size, s->size);
        number("ours: used room, as polled", r.used, used);
        number("ours: longest key", r.keymax, ordinal < 16 ? model_key_max(ordinal) : 0);
        number("ours: longest value", r.valuemax, ordinal < 16 ? model_value_max(ordinal) : 0);
        number("ours: most keys", r.maxkeys, ordinal < 16 ? model_max_keys(ordinal) : 0);
        own++;
    }
}

/* another device's page: any bytes, or those of the page before with some changed */
static void foreign(void) {
    if (one_in(2)) rubbish(page, expected, sizeof page);
    switch (below(6)) {
    case 0: case 1: page[25] = 255 - below(6); break;
    case 2: page[25] = below(20); break;
    case 3: page[below(FIRST)] = next(); break;
    case 4: memset(page, one_in(2) ? 0xff : 0, PAGE); break;
    default: page[29] = next();
    }
    uint32_t formats = page[25] + 1, some[8] = {0, formats - 1, formats, FIT - 1, FIT, 255, below(300), (uint32_t)next()};
    for (uint32_t i = 0; i < 8; i++) {
        size_t len = one_in(8) ? off(PAGE) : PAGE;
        struct kv_identity r = read_identify(len, some[i]);
        if (len != PAGE) {
            cut++;
            continue;
        }
        given += some[i] < formats && some[i] < FIT;
        last += some[i] < formats && some[i] == FIT - 1;
        behind += some[i] == formats && formats < FIT;
        past += some[i] < formats && some[i] >= FIT;
        bits += page[29] > 15;
        wide += r.size >> 32 != 0 && r.used >> 32 != 0;
    }
}

static void count(struct model_store *store, const struct model_space *s) {
    uint32_t which = s != store->spaces, two = store->count - 1;
    shown[two + which][s->count > 0]++;
    if (two) apart[which] += model_used(store->spaces) != model_used(store->spaces + 1);
    spared += !intact;
    indices |= 1u << s->index;
}

void any_identify(size_t dlen, size_t vlen) {
    uint32_t id = one_in(4) ? stranger() : one_in(4) ? written_id() : held->spaces[below(held->count)].id;
    if (one_in(10)) dlen = one_in(2) ? model_directory(held, held->count) - 1 : below(dlen + 1);
    if (one_in(10)) vlen = one_in(2) ? model_values(held, held->count) - 1 : below(vlen + 1);
    int legal = model_read(seen, model.directory, dlen, model.values, vlen);
    if (intact && dlen == directory_len && vlen == values_len) number("Identify: legal by the history", legal, 1);
    struct model_store *store = intact ? held : seen;
    const struct model_space *s = legal ? model_named(store, id) : 0;
    if (one_in(3)) {
        number("Identify: a wrong length", identify(off(PAGE), id, dlen, vlen), 14);
        early[!legal ? 2 : s == 0]++;
    }
    uint32_t got = identify(PAGE, id, dlen, vlen);
    number("Identify: number by the history", got, !legal ? 18 : s == 0 ? 23 : 0);
    if (got == 18) illegal[!intact]++;
    if (got == 23) unheld[store->count - 1][id == 0 ? 0 : id == 0xffffffff ? 1 : 2]++;
    if (got == 0) {
        struct kv_room room = poll(id, dlen, vlen);
        number("Identify: used room by the history", room.used, model_used(s));
        count(store, s);
        read_again(s, room.used);
    }
    foreign();
}

/* ---- counters */

int told(const char *what, const uint64_t *n, uint32_t many) {
    int missing = 0;
    printf("%s", what);
    for (uint32_t i = 0; i < many; i++) {
        printf(" %llu", (unsigned long long)n[i]);
        missing += n[i] == 0;
    }
    return missing;
}

int report_identify(void) {
    uint64_t read[8] = {own, given, last, behind, past, bits, wide, cut}, met[4] = {done[0], done[4], done[5], done[6]};
    uint64_t later[4] = {ahead[0], ahead[4], ahead[5], ahead[6]};
    int missing = told("Identify pages without keys and with, of one namespace, the first and the second of two:", shown[0], 6);
    missing += told("; of two, where the other has other used room:", apart, 2) + told("; after damage:", &spared, 1);
    missing += told("\nIdentify refused: 14 alone, before 23, before 18:", early, 3);
    missing += told("; 18 for short slices, for damage:", illegal, 2);
    missing += told("; 23 for 0, FFFFFFFFh and others, of one namespace and two:", unheld[0], 6);
    missing += told("\nIdentify pages read: ours", read, 1) + told(", others with a descriptor", read + 1, 1);
    missing += told(", the last there can be", read + 2, 1) + told(", behind the formats", read + 3, 1);
    missing += told(", behind the page", read + 4, 1) + told("; bits above the index", read + 5, 1);
    missing += told(", 64 bits of size and used room", read + 6, 1) + told(", 14", read + 7, 1);
    missing += told("\nformatted by fields, numbers 0, 4, 5, 6:", met, 4) + told(", 5 for upper bytes alone:", &high, 1);
    missing += told("; after 14 for the length:", later, 4) + told("; bits above the index:", &above, 1);
    printf("\n");
    if (indices != 0xffff) printf("formats on Identify pages, a bit each: %llx\n", (unsigned long long)indices);
    return missing + (indices != 0xffff);
}
