/* Each call made on both sides, the library's and the model's, and compared: number, whatever it was lent, and the bytes behind
 * each slice. */
#include "fuzz.h"

_Noreturn void exit(int);

enum { NUMBERS = 24 };

struct side real, model;
static struct model_store stores[2] = {{.count = 1}}; /* so that there is a namespace to ask for before the first formatting */
struct model_store *held = stores, *seen = stores + 1;
int intact;
size_t directory_len, values_len;
uint64_t calls;
static uint64_t statuses[256], numbers[NUMBERS], nulls, polls;
/* by how many namespaces there are: polls that the history foretells, of one without keys and of one with; ids of none, 0 and others, in
 * a poll and in a command; and Retrieves of a key that the other namespace holds too, with another value */
static uint64_t kept[2][2], unheld[2][2], unnamed[2][2], twins;
static uint32_t fullest[4], longest; /* the most keys held, by q, and the most keys on a page */
const char *doing = "";

/* ---- comparing */

_Noreturn void differ(const char *what, uint64_t got, uint64_t expected) {
    printf("MISMATCH: seed %llu, call %llu, %s: ", (unsigned long long)seed, (unsigned long long)calls, doing);
    printf("%s: got %llxh, the model has %llxh\n", what, (unsigned long long)got, (unsigned long long)expected);
    printf("entry:");
    for (int i = 0; i < 64; i++) printf(" %02x", real.entry[i]);
    printf("\n");
    for (uint32_t i = 0; i < held->count; i++) {
        const struct model_space *s = held->spaces + i;
        printf("namespace %x: format %u, size %u, %u keys\n", s->id, s->index, s->size, s->count);
    }
    printf("slices of %u and %u bytes\n", (unsigned)directory_len, (unsigned)values_len);
    exit(1);
}

void number(const char *what, uint64_t got, uint64_t expected) {
    if (got != expected) differ(what, got, expected);
}

void bytes(const char *what, const uint8_t *got, const uint8_t *expected, size_t n) {
    if (memcmp(got, expected, n) == 0) return;
    size_t i = 0;
    while (got[i] == expected[i]) i++;
    printf("byte %u of %s differs\n", (unsigned)i, what);
    differ(what, got[i], expected[i]);
}

uint32_t numbered(uint32_t got, uint32_t expected) {
    number("number", got, expected);
    if (got >= NUMBERS) differ("number above all", got, expected);
    numbers[got]++;
    return got;
}

uint32_t called(uint32_t got, uint32_t expected) {
    numbered(got, expected);
    bytes("directory", real.directory, model.directory, sizeof real.directory);
    bytes("values", real.values, model.values, sizeof real.values);
    bytes("data buffer", real.data, model.data, sizeof real.data);
    bytes("completion", real.completion, model.completion, sizeof real.completion);
    bytes("entry", real.entry, model.entry, sizeof real.entry);
    return got;
}

uint32_t get16(const uint8_t *p) { return p[0] | p[1] << 8; }

/* ---- the calls */

uint8_t *lent(const uint8_t *p, size_t n) {
    if (n > 0 || one_in(2)) return (uint8_t *)p;
    nulls++;
    return 0;
}

static uint32_t formatted(const struct asked *a, uint32_t n, size_t dlen, size_t vlen) {
    uint8_t *d = lent(real.directory, dlen), *v = lent(real.values, vlen), *e = model.directory, *w = model.values;
    if (n == 1 && a->index < 16 && one_in(2)) return format_fields(a, d, dlen, v, vlen);
    if (n == 1) {
        uint32_t got = kv_format(a->index, a->id, a->size, d, dlen, v, vlen);
        return called(got, model_format(a->index, a->id, a->size, e, dlen, w, vlen));
    }
    uint32_t got = kv_format_two(a[0].index, a[0].id, a[0].size, a[1].index, a[1].id, a[1].size, d, dlen, v, vlen);
    return called(got, model_format_two(a[0].index, a[0].id, a[0].size, a[1].index, a[1].id, a[1].size, e, dlen, w, vlen));
}

uint32_t format(const struct asked *a, uint32_t n, size_t dlen, size_t vlen) {
    calls++;
    doing = n == 1 ? "kv_format" : "kv_format_two";
    uint32_t got = formatted(a, n, dlen, vlen);
    if (got == 0) {
        directory_len = dlen;
        values_len = vlen;
        intact = model_read(held, model.directory, dlen, model.values, vlen); /* legal, and no key */
        number("legal after formatting", intact, 1);
        number("namespaces after formatting", held->count, n);
        for (turn = 0; turn < n; turn++) number("keys after formatting", ours()->count, 0);
        take_turn();
    }
    if (one_in(2)) any_question(dlen, vlen);
    return got;
}

/* whether the namespace beside `s` holds the key too, with another value */
static int twin(const struct model_space *s, const uint8_t *key, uint32_t len) {
    const struct model_space *t = held->spaces + (s == held->spaces);
    uint32_t i = model_from(s, key, len), j = model_from(t, key, len);
    if (j == t->count || t->pairs[j].key_len != len || memcmp(t->pairs[j].key, key, len) != 0) return 0;
    return t->pairs[j].value_len != s->pairs[i].value_len || memcmp(model_value(s, i), model_value(t, j), s->pairs[i].value_len) != 0;
}

/* counts what a command on legal memory showed */
static void witness(struct model_store *store, uint32_t status) {
    uint8_t key[16];
    uint32_t nsid, two = store->count - 1;
    memcpy(&nsid, real.entry + 4, 4);
    memcpy(key, real.entry + 8, 8);
    memcpy(key + 8, real.entry + 56, 8);
    if (status == KV_INVALID_NAMESPACE) unnamed[two][nsid != 0]++;
    for (uint32_t i = 0; i < store->count; i++) {
        const struct model_space *s = store->spaces + i;
        if (s->count > fullest[s->index / 4]) fullest[s->index / 4] = s->count;
    }
    if (status != 0) return;
    if (real.entry[0] == KV_LIST && get16(real.data) > longest) longest = get16(real.data);
    if (real.entry[0] == KV_RETRIEVE && two && store == held) twins += twin(model_named(held, nsid), key, real.entry[44]);
}

uint32_t command(size_t entry_len, size_t completion_len, size_t room, size_t dlen, size_t vlen) {
    uint16_t head = next(), queue = next(), phase = next();
    calls++;
    doing = "kv_command";
    int legal = model_read(seen, model.directory, dlen, model.values, vlen);
    if (intact && dlen == directory_len && vlen == values_len) number("legal by the history", legal, 1);
    if (intact && legal) number("maps by the history", model_same(seen, held), 1);
    struct model_store *store = !legal ? 0 : intact ? held : seen;
    uint32_t got = kv_command(lent(real.entry, entry_len), entry_len, lent(real.completion, completion_len), completion_len,
                              lent(real.data, room), room, lent(real.directory, dlen), dlen, lent(real.values, vlen), vlen, head,
                              queue, phase);
    uint32_t expected = model_command(store, model.entry, entry_len, model.completion, completion_len, model.data, room,
                                      model.directory, model.values, head, queue, phase);
    called(got, expected);
    uint32_t status = (real.completion[14] | real.completion[15] << 8) >> 1 & 255;
    if (got == 0) statuses[status]++;
    if (got == 0 && store != 0) witness(store, status);
    if (one_in(8)) any_question(dlen, vlen);
    return got != 0 ? 0x100 : status;
}

struct kv_room poll(uint32_t id, size_t dlen, size_t vlen) {
    calls++;
    doing = "kv_used";
    struct kv_room a = kv_used(id, lent(real.directory, dlen), dlen, lent(real.values, vlen), vlen);
    struct kv_room b = model_room(id, model.directory, dlen, model.values, vlen);
    called(a.number, b.number);
    number("used room", a.used, b.used);
    number("keys", a.keys, b.keys);
    polls++;
    if (!intact || dlen != directory_len || vlen != values_len) return a;
    const struct model_space *s = model_named(held, id);
    number("number by the history", a.number, s == 0 ? 23 : 0);
    if (s == 0) {
        unheld[held->count - 1][id != 0]++;
        return a;
    }
    number("used room by the history", a.used, model_used(s));
    number("keys by the history", a.keys, s->count);
    kept[held->count - 1][s->count > 0]++;
    return a;
}

void any_poll(size_t dlen, size_t vlen) { poll(one_in(6) ? stranger() : one_in(4) ? written_id() : held->spaces[below(held->count)].id, dlen, vlen); }

uint32_t build(size_t entry_len, uint8_t opcode, uint32_t nsid, const uint8_t *key, size_t key_len, uint32_t dword10,
               uint8_t options) {
    uint16_t cid = next();
    calls++;
    doing = "kv_build";
    uint32_t got = kv_build(lent(real.entry, entry_len), entry_len, opcode, cid, nsid, lent(key, key_len), key_len, dword10,
                            options);
    numbered(got, model_build(model.entry, entry_len, opcode, cid, nsid, key, key_len, dword10, options));
    bytes("entry", real.entry, model.entry, sizeof real.entry);
    return got;
}

struct kv_completion read_completion(const uint8_t *completion, size_t len) {
    calls++;
    doing = "kv_read_completion";
    struct kv_completion a = kv_read_completion(lent(completion, len), len), b = model_read_completion(completion, len);
    numbered(a.number, b.number);
    number("Dword 0", a.dword0, b.dword0);
    number("head", a.head, b.head);
    number("queue id", a.queue, b.queue);
    number("command identifier", a.cid, b.cid);
    number("phase", a.phase, b.phase);
    number("status", a.status, b.status);
    number("type", a.type, b.type);
    return a;
}

struct kv_page_key read_page(const uint8_t *page, size_t len, uint32_t ordinal) {
    calls++;
    doing = "kv_read_page";
    struct kv_page_key a = kv_read_page(lent(page, len), len, ordinal), b = model_read_page(page, len, ordinal);
    numbered(a.number, b.number);
    number("count", a.count, b.count);
    number("key length", a.len, b.len);
    bytes("key", a.key, b.key, 16);
    return a;
}

/* ---- counters */

static int of_each(const char *what, const uint64_t n[2][2]) {
    printf("%s %llu %llu of one namespace, %llu %llu of two; ", what, (unsigned long long)n[0][0], (unsigned long long)n[0][1],
           (unsigned long long)n[1][0], (unsigned long long)n[1][1]);
    return (n[0][0] == 0) + (n[0][1] == 0) + (n[1][0] == 0) + (n[1][1] == 0);
}

int report_calls(void) {
    static const uint8_t all[11] = {0x00, 0x01, 0x02, 0x04, 0x06, 0x0b, 0x81, 0x85, 0x86, 0x87, 0x89};
    int missing = 0;
    printf("statuses:");
    for (int i = 0; i < 11; i++) {
        printf(" %02xh %llu", all[i], (unsigned long long)statuses[all[i]]);
        missing += statuses[all[i]] == 0;
    }
    printf("\nnumbers:");
    for (int i = 0; i < NUMBERS; i++) {
        if ((i > 15 && i < 18) || (i > 20 && i < 23)) continue; /* numbers that no call has */
        printf(" %d %llu", i, (unsigned long long)numbers[i]);
        missing += numbers[i] == 0;
    }
    printf(", null pointers %llu", (unsigned long long)nulls);
    missing += nulls == 0;
    printf("\nmost keys held:");
    for (uint32_t q = 0; q < 4; q++) {
        printf(" %u of %u", fullest[q], model_max_keys(4 * q));
        missing += fullest[q] != model_max_keys(4 * q);
    }
    printf(", on a page: %u; Retrieves of a key that both namespaces hold, with other values: %llu\n", longest, (unsigned long long)twins);
    missing += twins == 0;
    missing += of_each("entries with id 0 and another id of none:", unnamed);
    missing += of_each("\npolls with these:", unheld);
    missing += of_each("\npolls as the history has it, with no key and with keys:", kept);
    printf("in all %llu\n", (unsigned long long)polls);
    return missing + (longest < 256); /* a page count that has one byte is to be seen */
}
