/* What is lent and asked of a working memory: lengths, ranges and ids of every kind, and faults alone and together. */
#include "fuzz_memory.h"

static void lend(uint32_t i, size_t len, size_t most) {
    static uint8_t twins[SLICES][REGION];
    struct slice *s = slices + i;
    if (s->end == 0) s->end = edge(REGION), s->twin = twins[i] + REGION;
    s->len = len;
    s->have = len < most ? len : most;
    s->gap = one_in(2) ? 0 : 1 + below(SPARE);
    rubbish(from(i, s->end) - SPARE, from(i, s->twin) - SPARE, SPARE + s->have + s->gap);
}

/* now and then one that is wrong only in the upper bits of its length */
static size_t wrong(size_t right) { return one_in(4) ? right + (1ull << (8 + below(56))) : off(right); }

static size_t wrong_memory(size_t m) {
    size_t some[7] = {LARGEST + 4, LARGEST + 1 + below(7), m + 1 + below(3), LARGEST - 1 - below(3), m > 0 ? m - 1 - below(3) : 1,
                      m + (1ull << (17 + below(47))), -(size_t)(1 + below(8))};
    return some[below(7)];
}

/* a range within m bytes */
static void aim(uint64_t m) {
    ask.start = 4 * below(m / 4 + 1);
    ask.length = 4 * below((m - ask.start) / 4 + 1);
    switch (below(8)) {
    case 0: ask.start = m, ask.length = 0; break;
    case 1: ask.start = 0, ask.length = m; break;
    case 2: ask.length = m - ask.start; break;
    case 3: if (ask.length > 8) ask.length = 4 * below(3);
    }
}

/* one that is not: just past, and such that would do in fewer bits */
static void aim_past(uint64_t m) {
    uint32_t more = 4 + 4 * below(4), within = 4 * below(m / 4 + 1);
    switch (below(8)) {
    case 0: ask.start = m + 4, ask.length = 0; break;
    case 1: ask.length = m - ask.start + more; break;
    case 2: ask.start += 1ull << (32 + below(32)); break;
    case 3: ask.length += 1u << (17 + below(15)); break;
    case 4: ask.start = (1ull << 32) - more, ask.length = more + within; break;
    case 5: ask.start = more + within, ask.length = -more; break;
    case 6: ask.start = -(uint64_t)more, ask.length = more + within; break;
    default: ask.start = next() / 4 * 4, ask.length = next() / 4 * 4; /* the start is near no limit */
    }
}

static size_t some_buffer(uint32_t faults) {
    uint64_t n = ask.length;
    if (faults >> SHORT & 1 && n > 0) return one_in(2) ? n - 1 : below(n);
    return one_in(2) ? n : one_in(2) ? n + below(SPARE) : (1ull << (32 + below(24))) + below(n + 1);
}

static void draw(uint32_t kind, uint32_t faults) {
    static const uint32_t ids[3] = {0, 1, 0xffffffff};
    struct slice *m = slices + MEMORY;
    ask.kind = kind;
    ask.id = one_in(4) ? ids[below(3)] : (uint32_t)next();
    ask.named = faults >> OTHER_ID & 1 ? (one_in(2) ? ask.id ^ 1u << below(32) : one_in(2) ? ids[below(3)] : (uint32_t)next()) : ask.id;
    ask.fill = next(), ask.head = next(), ask.queue = next(), ask.phase = next();
    m->len = one_in(8) ? 4 * below(m->have / 4 + 1) : m->have; /* fewer bytes of the memory now and then */
    aim(m->len);
    if (faults >> PAST & 1) aim_past(m->len);
    if (faults >> ODD & 1) {
        uint32_t which = below(3);
        if (which != 0) ask.start += 1 + below(3);
        if (which != 1) ask.length += 1 + below(3);
    }
    if (faults >> MEMORY_LENGTH & 1) m->len = wrong_memory(m->len);
}

/* rubbish but for the fields; `real` has it too, where a mismatch finds it */
static void lay_entry(void) {
    size_t n = slices[ENTRY].have < 64 ? slices[ENTRY].have : 64;
    rubbish(real.entry, model.entry, 64);
    memcpy(real.entry + 4, &ask.named, 4);
    memcpy(real.entry + 40, &ask.start, 8);
    memcpy(real.entry + 48, &ask.length, 4);
    memcpy(model.entry, real.entry, 64);
    memcpy(from(ENTRY, slices[ENTRY].end), real.entry, n);
    memcpy(from(ENTRY, slices[ENTRY].twin), real.entry, n);
}

static void lend_all(uint32_t faults) {
    lend(ENTRY, faults >> ENTRY_LENGTH & 1 ? wrong(64) : 64, 64 + SPARE);
    lend(COMPLETION, faults >> COMPLETION_LENGTH & 1 ? wrong(16) : 16, 16 + SPARE);
    lend(BUFFER, ask.kind == FILL ? 0 : some_buffer(faults), slices[MEMORY].have + SPARE);
    lay_entry();
}

/* every other time none; else one or several, every other time of those alone that a status tells */
static uint32_t some_faults(void) {
    uint32_t faults = one_in(2) ? 1u << below(CAUSES) : 1 + below((1u << CAUSES) - 1);
    return one_in(2) ? 0 : one_in(2) ? faults : faults >> OTHER_ID << OTHER_ID;
}

void any_memory(void) {
    size_t size = one_in(40) ? LARGEST : 4 * below(one_in(40) ? LARGEST / 4 + 1 : one_in(4) ? 257 : 17);
    lend(MEMORY, size, size);
    as_lent();
    for (uint32_t i = size > 1024 ? 4 + below(16) : 8 + below(64); i > 0; i--) {
        uint32_t faults = some_faults();
        draw(below(KINDS), faults);
        lend_all(faults);
        give();
    }
    draw(READ, 0);
    slices[MEMORY].len = size;
    ask.start = 0, ask.length = size;
    lend_all(0);
    give();
}
