/* Memories that no formatting leaves, made up for the look for a key, which does not ask whether memory is legal: halves of the head without
 * an id, with one id for both, with FFFFFFFFh, sizes of more than 65,536 together, records of any length in any order. Each is searched;
 * then with one fault in the head, or a slice too short, it is refused. */
#include "fuzz.h"

enum { ROOM = 65536 };
enum { ALONE, FIRST, SECOND, BEHIND_NONE };
enum { RUBBISH, IN_ORDER, MIXED, FEW_BYTES, BY_LENGTH, KINDS };

static uint8_t made[sizeof real.directory], kept[sizeof made];
static struct half {
    uint32_t id, index, size, count;
} halves[2];
static size_t runs[2], dlen; /* where the records of each half begin, and the slices, as short as they may be or longer */
static uint64_t vlen;

/* searched, by what the half stands beside: not known and known; the same with FFFFFFFFh as its id, by half; with sizes of more than
 * 65,536 together; beside a half without an id and with numbers that none has */
static uint64_t searched[4][2], ones[2], large, absurd;
/* with one id for both: keys of the first, and keys of the second that are not known; keys that stand among the records and are not
 * found; keys that stand right behind the last record */
static uint64_t equals[2], hidden, behind;
/* 6 for one fault: index, size 0, size too large, too many keys; each of the first half and of the second, whose id is asked for or the
 * other's. Slices: no whole head, records of one half, of both but enough for either, values likewise. 23 where no half has an id */
static uint64_t spoilt[4][4], cuts[5], bare;

static void put32(uint8_t *p, uint32_t n) { memcpy(p, &n, 4); }

static uint32_t get32(const uint8_t *p) { return get16(p) | get16(p + 2) << 16; }

static uint32_t slots(uint32_t h) { return halves[h].id == 0 ? 0 : model_max_keys(halves[h].index); }

static uint32_t room(uint32_t h) { return halves[h].id == 0 ? 0 : halves[h].size; }

/* ---- memory */

static uint32_t odd_length(uint32_t n) {
    uint32_t some[5] = {0, 17 + below(3), n + (256u << 8 * below(3)), 0xffffffff, next()};
    return some[below(5)];
}

static void lay_run(uint8_t *run, uint32_t n) {
    static const uint8_t some[3] = {'A', 0x00, 0xff};
    uint32_t kind = below(KINDS), rising = below(3);
    for (uint32_t i = 0; i < n && kind != RUBBISH; i++) {
        uint8_t *r = run + 32 * i, swap[32];
        uint32_t high = 60 * i + below(60), len = kind == FEW_BYTES ? 1 + below(3) : 3 + below(14);
        memset(r + len, 0, 16 - len);
        if (kind == IN_ORDER || kind == MIXED) r[0] = high >> 8, r[1] = high;
        for (uint32_t j = 0; j < len && kind == FEW_BYTES; j++) r[j] = some[below(3)];
        if (kind == BY_LENGTH) memset(r, 0, 16), r[0] = 'A', len = rising += one_in(6) ? 256u << 8 * below(2) : 1;
        put32(r + 16, kind != BY_LENGTH && one_in(12) ? odd_length(len) : len);
        if (kind != MIXED || !one_in(4)) continue;
        uint8_t *other = run + 32 * below(i + 1);
        memcpy(swap, r, 32);
        memcpy(r, other, 32);
        memcpy(other, swap, 32);
    }
}

static void choose(uint32_t h, int there) {
    uint32_t index = one_in(8) ? below(16) : 8 + below(8), most = model_max_keys(index);
    halves[h] = (struct half){one_in(6) ? 0xffffffff : 1 + below(0xfffffffe), index, one_in(3) ? ROOM : 1 + below(one_in(4) ? 2 : ROOM),
                              one_in(3) ? most : below(most + 1)};
    if (h == 1 && one_in(4)) halves[1].id = halves[0].id;
    if (there) return;
    halves[h].id = 0;
    if (one_in(2)) halves[h].index = next(), halves[h].size = next(), halves[h].count = next();
}

static void make(void) {
    int first = !one_in(4), second = first ? one_in(2) : !one_in(8);
    size_t end = 64;
    choose(0, first);
    choose(1, second);
    for (uint32_t h = 0; h < 2; h++) runs[h] = end, end += 32 * slots(h);
    dlen = end + (one_in(2) ? 0 : below(end + 200 < sizeof made ? 200 : sizeof made - end));
    vlen = room(0) + (uint64_t)room(1);
    if (one_in(2)) vlen = one_in(2) ? vlen + below(100) : (1ull << (32 + below(8))) + below(vlen + 1); /* no byte of it is read */
    rubbish(made, kept, dlen);
    for (uint32_t h = 0; h < 2; h++) {
        memcpy(made + 32 * h, halves + h, 16);
        lay_run(made + runs[h], slots(h));
    }
    memcpy(kept, made, dlen);
}

/* ---- searches */

static struct kv_look asked(const struct wanted *w, size_t directory, size_t values) { return look(w, made, kept, directory, 0, values); }

/* what stands in a record of half h, in front of the count or behind it, or near that; or the lowest of all keys */
static void want(struct wanted *w, uint32_t h) {
    uint32_t n = one_in(4) || halves[h].count == 0 ? slots(h) : halves[h].count, i = below(n), len;
    if (one_in(8) && halves[h].count < slots(h)) i = halves[h].count;
    const uint8_t *r = made + runs[h] + 32 * i;
    memcpy(w->key, r, 16);
    len = get32(r + 16) % 256;
    if (len < 1 || len > 16) len = 1 + below(16);
    w->len = one_in(4) ? near_key(w->key, len) : len;
    if (one_in(16)) memset(w->key, 0, 16), w->len = 1;
    w->id = one_in(16) ? (uint32_t)next() : one_in(16) ? 0 : halves[one_in(6) ? 1 - h : h].id;
    if (one_in(40)) w->len = bad_length(w->len);
}

/* whether the key stands among n records of half h, in whatever order they are */
static int stands(const struct wanted *w, uint32_t h, uint32_t from, uint32_t n) {
    uint8_t key[16] = {0};
    memcpy(key, w->key, w->len);
    for (const uint8_t *r = made + runs[h] + 32 * from; n > 0; n--, r += 32)
        if (memcmp(r, key, 16) == 0 && get32(r + 16) == w->len) return 1;
    return 0;
}

static void count(const struct wanted *w, struct kv_look said) {
    uint32_t h = w->id == halves[0].id ? 0 : 1, both = halves[0].id != 0 && halves[1].id != 0, n = halves[h].count;
    number("made up: known only where it stands", said.known && !stands(w, h, 0, n), 0);
    searched[both ? FIRST + h : h == 0 ? ALONE : BEHIND_NONE][said.known]++;
    ones[h] += w->id == 0xffffffff;
    large += room(0) + room(1) > ROOM;
    absurd += halves[1 - h].id == 0 && halves[1 - h].index > 15;
    hidden += !said.known && stands(w, h, 0, n);
    behind += !said.known && n < slots(h) && stands(w, h, n, 1);
    if (!both || halves[0].id != halves[1].id) return;
    equals[0] += said.known;
    equals[1] += !said.known && stands(w, 1, 0, halves[1].count);
}

/* ---- refusals */

/* one word of half h that it cannot have; the same key is looked for */
static void spoil(const struct wanted *w, uint32_t h) {
    uint32_t kind = below(4), most = model_max_keys(halves[h].index);
    uint32_t index = one_in(2) ? 16 : halves[h].index + (16u << below(28));
    uint32_t size = one_in(3) ? ROOM + 1 : one_in(2) ? 0xffffffff : ROOM + 1 + below(ROOM);
    uint32_t count = one_in(2) ? most + 1 : one_in(2) ? 0xffffffff : halves[h].count + (2048u << below(21));
    uint32_t words[4] = {index, 0, size, count}, at = 32 * h + (kind == 0 ? 4 : kind == 3 ? 12 : 8);
    put32(made + at, words[kind]);
    put32(kept + at, words[kind]);
    number("made up: one fault", asked(w, dlen, vlen).number, 6);
    memcpy(made + at, (uint8_t *)halves + 16 * h + at % 32, 4);
    memcpy(kept + at, made + at, 4);
    uint32_t asked_for = w->id == halves[0].id ? 0 : 1;
    if (halves[0].id != 0 && halves[1].id != 0) spoilt[kind][2 * h + (asked_for != h)]++;
}

/* one slice too short, and the other as it was */
static void shorten(const struct wanted *w) {
    uint32_t both = halves[0].id != 0 && halves[1].id != 0, kind = below(3);
    size_t need = runs[1] + 32 * slots(1), values = room(0) + room(1);
    number("made up: a slice too short", asked(w, kind == 0 ? below(64) : kind == 1 ? need - 1 : dlen, kind == 2 ? values - 1 : vlen).number, 6);
    cuts[kind == 0 ? 0 : 2 * kind - 1 + both]++;
}

void any_heads(void) {
    make();
    if (slots(0) + slots(1) == 0) {
        struct wanted w = {{'A'}, 1, one_in(2) ? 0 : next()};
        number("made up: no half with an id", asked(&w, dlen, vlen).number, 23);
        bare++;
        return;
    }
    for (uint32_t i = 3 + below(4); i > 0; i--) {
        struct wanted w;
        want(&w, slots(0) == 0 || (slots(1) > 0 && one_in(2)));
        struct kv_look said = asked(&w, dlen, vlen);
        if (said.number != 0) continue;
        count(&w, said);
        uint32_t h = below(2);
        if (one_in(3)) spoil(&w, slots(h) > 0 ? h : 1 - h);
        if (one_in(6)) shorten(&w);
    }
}

/* ---- counters */

int report_heads(void) {
    static const char *const faults[4] = {"index", "size 0", "size", "keys"};
    int missing = told("made up, not known and known, of a first half alone, with a second, of that, of a second alone:", searched[0], 8);
    missing += told("; id FFFFFFFFh:", ones, 2) + told("; sizes above 65,536 together:", &large, 1) + told("; absurd without an id:", &absurd, 1);
    missing += told("; one id for both:", equals, 2) + told("; there and not found:", &hidden, 1) + told(", behind the last:", &behind, 1);
    printf("\nmade up and refused with 6 for");
    for (int i = 0; i < 4; i++) {
        printf(" ");
        missing += told(faults[i], spoilt[i], 4);
    }
    missing += told(", for a head cut, records of one and of both, values of one and of both:", cuts, 5) + told("; no id at all, 23:", &bare, 1);
    printf("\n");
    return missing;
}
