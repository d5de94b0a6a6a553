/* The look for a key, on the memory as it is, damaged memory among it, with keys, lengths, ids and slices of every kind. Each is compared
 * with the model over the bytes, with the map where memory is legal, and asked again of other bytes: only what the model looked at is kept. */
#include "fuzz.h"

enum { MOST = 11, MEMORY = sizeof real.directory };

/* by how many records were looked at: not known and known; the most of all in memory that the history foretells */
static uint64_t looks[MOST + 1][2], farthest[2];
/* by the history, of a namespace alone, of the first and of the second of two: not known and known; not known, but of the other namespace; of
 * memory that damage left legal or not: not known and known; and beside Exist: 87h, 00h, 86h */
static uint64_t foreseen[3][2], others, spared[2], broken[2], exists[3];
/* records looked at that differ from the key in their length alone, which is above or below the key's; those longer than any key */
static uint64_t longer, shorter, endless;
/* refused: 15 with nothing else wrong, before 23, before 6; for no byte, for 17, for lengths of which the lower bits would do; 6 alone,
 * before 23; 23 for 0, FFFFFFFFh and others */
static uint64_t early[3], lengths[3], cut[2], unheld[3];
static uint64_t again; /* asked again of other bytes */

/* ---- one call */

static uint32_t get32(const uint8_t *p) { return get16(p) | get16(p + 2) << 16; }

static void same(const char *what, struct kv_look got, struct kv_look expected, const struct wanted *w, size_t dlen, size_t vlen) {
    if (got.number != expected.number || got.known != expected.known || got.looked != expected.looked) {
        printf("%s, id %x, slices of %llu and %llu bytes, key of %llu:", what, w->id, (unsigned long long)dlen, (unsigned long long)vlen,
               (unsigned long long)w->len);
        for (int i = 0; i < 16; i++) printf(" %02x", w->key[i]);
        printf("\n");
    }
    number("number", got.number, expected.number);
    number("known", got.known, expected.known);
    number("looked", got.looked, expected.looked);
}

/* The same answer where every byte is turned but those that it may hang on: the head's numbers, and the keys looked at with their lengths.
 * Directory and key end where no byte can be read; the values begin there, and so does a key that is too long. */
static void agree(const struct wanted *w, const uint8_t *memory, size_t dlen, size_t vlen, struct kv_look said, const size_t *places) {
    static uint8_t turned[MEMORY], *end, *key_end;
    if (end == 0) end = edge(2 << 16), key_end = edge(1 << 16);
    uint8_t *key = w->len > 16 ? key_end : key_end - w->len, *d = end - dlen;
    for (size_t i = 0; i < dlen; i++) turned[i] = ~memory[i];
    for (size_t h = 0; h < 64 && dlen >= 64 && said.number != 15; h += 32) memcpy(turned + h, memory + h, get32(memory + h) == 0 ? 4 : 16);
    for (uint32_t i = 0; i < said.looked; i++) memcpy(turned + places[i], memory + places[i], 20);
    memcpy(d, turned, dlen);
    if (w->len <= 16) memcpy(key, w->key, w->len);
    calls++;
    doing = "kv_known, of other bytes";
    same(doing, kv_known(lent(key, w->len), w->len, w->id, lent(d, dlen), dlen, lent(end, vlen), vlen), said, w, dlen, vlen);
    bytes("directory of other bytes", d, turned, dlen);
    again++;
}

static void count(const struct wanted *w, const uint8_t *memory, size_t dlen, size_t vlen, struct kv_look said, const size_t *places) {
    uint8_t key[16] = {0};
    size_t none[MOST];
    uint32_t otherwise;
    if (said.number == 0) {
        looks[said.looked][said.known]++;
        memcpy(key, w->key, w->len);
        for (uint32_t i = 0; i < said.looked; i++) {
            uint32_t len = get32(memory + places[i] + 16);
            endless += len > 16;
            if (memcmp(memory + places[i], key, 16) == 0) longer += len > w->len, shorter += len < w->len;
        }
    } else if (said.number == 15) {
        otherwise = model_known(key, 1, w->id, memory, dlen, vlen, none).number;
        early[otherwise == 0 ? 0 : otherwise == 23 ? 1 : 2]++;
        if (w->len == 0) lengths[0]++;
        if (w->len == 17) lengths[1]++;
        if (w->len > 17 && w->len % 256 >= 1 && w->len % 256 <= 16) lengths[2]++;
    } else if (said.number == 6) {
        int named = dlen >= 64 && w->id != 0 && (w->id == get32(memory) || w->id == get32(memory + 32));
        cut[!named]++;
    } else unheld[w->id == 0 ? 0 : w->id == 0xffffffff ? 1 : 2]++;
}

struct kv_look look(const struct wanted *w, const uint8_t *d, const uint8_t *memory, size_t dlen, const uint8_t *v, size_t vlen) {
    static const uint8_t *unread;
    size_t places[MOST];
    if (unread == 0) unread = edge(0);
    calls++;
    doing = "kv_known";
    const uint8_t *key = w->len > 16 ? unread : lent(w->key, w->len);
    struct kv_look got = kv_known(key, w->len, w->id, lent(d, dlen), dlen, lent(v != 0 ? v : unread, vlen), vlen);
    struct kv_look said = model_known(w->key, w->len, w->id, memory, dlen, vlen, places);
    same(doing, got, said, w, dlen, vlen);
    called(got.number, said.number);
    bytes("directory looked at", d, memory, dlen);
    count(w, memory, dlen, vlen, said, places);
    if (one_in(2)) agree(w, memory, dlen, vlen, said, places);
    return said;
}

/* ---- what is asked */

/* another key in its neighbourhood: a zero byte more, one byte fewer, a bit turned, or the last byte one more or less */
uint32_t near_key(uint8_t key[16], uint32_t len) {
    switch (below(4)) {
    case 0: if (len < 16) key[len++] = 0; break;
    case 1: if (len > 1) len--; break;
    case 2: key[below(len)] ^= 1 << below(8); break;
    default: key[len - 1] += one_in(2) ? 1 : 255;
    }
    return len;
}

size_t bad_length(uint32_t len) {
    size_t some[8] = {0, 0, 17, 17, 18 + below(240), 256 + len, ((size_t)1 << (32 + below(32))) + len, -(size_t)(1 + below(16))};
    return some[below(8)];
}

/* any key; the lowest that is held or one below it; what stands in a record, damaged or not, the one behind the last among them; or one of
 * the pool, or near it */
static uint32_t wanted_key(uint8_t key[16]) {
    const struct model_space *s = ours();
    uint32_t len;
    rubbish(key, key + 8, 8);
    if (one_in(12)) return 1 + below(16);
    if (one_in(6) && s->count > 0) {
        memcpy(key, s->pairs[0].key, len = s->pairs[0].key_len);
        if (one_in(3)) return len;
        memset(key, 0, 16);
        return 1;
    }
    if (one_in(4)) {
        const uint8_t *record = real.directory + model_directory(held, turn) + 32 * below(s->count + 1);
        memcpy(key, record, 16);
        len = get32(record + 16);
        return len >= 1 && len <= 16 ? len : 1 + below(16);
    }
    len = some_key(key);
    return one_in(3) ? near_key(key, len) : len;
}

/* what the history foretells, or of damaged memory what stands there */
static void foretold(const struct wanted *w, size_t dlen, size_t vlen, struct kv_look said) {
    int fits = dlen >= model_directory(held, held->count) && vlen >= model_values(held, held->count);
    int legal = intact ? fits : model_read(seen, model.directory, dlen, model.values, vlen);
    doing = "kv_known by what the memory holds";
    if (intact && !legal) number("number", said.number, w->len == 0 || w->len > 16 ? 15 : 6);
    if (!legal) {
        if (said.number == 0) broken[said.known]++;
        return;
    }
    struct model_store *store = intact ? held : seen;
    same(doing, model_known_held(store, w->key, w->len, w->id), said, w, dlen, vlen);
    if (said.number != 0) return;
    const struct model_space *s = model_named(store, w->id);
    if (!intact) spared[said.known]++;
    else foreseen[store->count == 1 ? 0 : 1 + (s != store->spaces)][said.known]++;
    if (intact && said.looked == MOST) farthest[said.known]++;
    if (store->count == 2 && !said.known) others += model_known_held(store, w->key, w->len, store->spaces[s == store->spaces].id).known;
}

void any_known(size_t dlen, size_t vlen) {
    struct wanted w;
    w.len = wanted_key(w.key);
    w.id = one_in(8) ? stranger() : one_in(8) ? written_id() : held->spaces[one_in(4) ? held->count - 1 - turn : turn].id;
    if (one_in(12)) w.len = bad_length(w.len);
    if (one_in(12)) dlen = one_in(2) ? model_directory(held, held->count) - 1 : one_in(2) ? 62 + below(4) : below(dlen + 1);
    if (one_in(12)) vlen = one_in(2) ? model_values(held, held->count) - 1 : below(vlen + 1);
    foretold(&w, dlen, vlen, look(&w, real.directory, model.directory, dlen, real.values, vlen));
}

void any_question(size_t dlen, size_t vlen) {
    if (one_in(2)) any_poll(dlen, vlen);
    else any_known(dlen, vlen);
}

/* what Exist is answered for a key beside what the look for it says */
void any_exist(void) {
    struct wanted w;
    take_turn();
    w.len = one_in(2) ? some_key(w.key) : wanted_key(w.key);
    w.id = ours()->id;
    number("Exist: built", build(64, KV_EXIST, w.id, w.key, w.len, 0, 0), 0);
    uint32_t status = command(64, 16, 0, directory_len, values_len);
    struct kv_look said = look(&w, real.directory, model.directory, directory_len, real.values, values_len);
    int too_long = w.len > model_key_max(ours()->index); /* which is no fault of a look, and no key that is held */
    number("Exist as it is known", status, said.known ? 0x00 : too_long ? 0x86 : 0x87);
    exists[too_long ? 2 : said.known]++;
}

/* ---- counters */

int report_known(void) {
    int missing = told("looked for, by the history not known and known, of one namespace, the first and the second of two:", foreseen[0], 6);
    missing += told("; 11 looks:", farthest, 2) + told("; the other's keys:", &others, 1) + told("; beside Exist's 87h, 00h, 86h:", exists, 3);
    missing += told("; damaged and legal:", spared, 2) + told(", not legal:", broken, 2);
    printf("\nrecords looked at, with the key not known and known:");
    for (uint32_t i = 0; i <= MOST; i++) missing += told(i == 0 ? " none" : ",", looks[i], i == 0 ? 1 : 2);
    missing += told("; longer than the key alone:", &longer, 1) + told(", shorter:", &shorter, 1) + told(", longer than any:", &endless, 1);
    missing += told("\nlooks refused: 15 alone, before 23, before 6:", early, 3) + told("; for 0, 17 and others:", lengths, 3);
    missing += told("; 6 alone, before 23:", cut, 2) + told("; 23 for 0, FFFFFFFFh and others:", unheld, 3);
    missing += told("; asked again of other bytes:", &again, 1);
    printf("\n");
    return missing;
}
