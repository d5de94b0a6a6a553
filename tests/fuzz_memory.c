/* Working memory: runs of Reads, Writes and Fills on one memory, with ranges, ids and slices of every kind and several faults at once. Each
 * call is compared with the model and with the first of its faults; each Read, byte by byte, with what was last written there. */
#include "fuzz_memory.h"

int snprintf(char *, size_t, const char *, ...);

enum { TOO_LARGE, UNEVEN, BY_START, BY_LENGTH, PLAIN, LOWER_START, LOWER_LENGTH, SUM_START, SUM_LENGTH, WRAPS, AT_END, BEYOND, WHOLE, NO_BYTE, TIGHT, SHAPES };

struct slice slices[SLICES];
struct ask ask;

/* of each byte: the call that wrote it last and of which kind that was, 0 and READ where none did since it was lent; and what stands there */
static struct written {
    uint64_t call;
    uint8_t kind, byte;
} last[LARGEST];

/* by call: the first fault, or none; that fault with the next one behind it, or behind 20 with any status; and what else was seen */
static uint64_t met[KINDS][CAUSES + 1], hid[KINDS][CAUSES], shapes[KINDS][SHAPES], again[KINDS];
/* Reads of bytes as they were lent, of a Write's, of a Fill's; of bytes of several calls; and bytes written over */
static uint64_t sources[KINDS], joined, over;

/* ---- one call */

uint8_t *from(uint32_t i, uint8_t *end) { return end - slices[i].gap - slices[i].have; }

static const struct calls {
    __typeof__(kv_memory_read) *read;
    __typeof__(kv_memory_write) *write;
    __typeof__(kv_memory_fill) *fill;
} library = {kv_memory_read, kv_memory_write, kv_memory_fill}, modelled = {model_memory_read, model_memory_write, model_memory_fill};

static uint32_t call(const struct calls *by, uint8_t *e, uint8_t *c, uint8_t *d, uint8_t *m) {
    size_t el = slices[ENTRY].len, cl = slices[COMPLETION].len, dl = slices[BUFFER].len, ml = slices[MEMORY].len;
    if (ask.kind == READ) return by->read(e, el, c, cl, d, dl, m, ml, ask.id, ask.head, ask.queue, ask.phase);
    if (ask.kind == WRITE) return by->write(e, el, c, cl, d, dl, m, ml, ask.id, ask.head, ask.queue, ask.phase);
    return by->fill(e, el, c, cl, ask.fill, m, ml, ask.id, ask.head, ask.queue, ask.phase);
}

static uint32_t call_device(void) {
    uint8_t *p[SLICES];
    for (uint32_t i = 0; i < SLICES; i++) p[i] = lent(from(i, slices[i].end), slices[i].len);
    calls++;
    return call(&library, p[ENTRY], p[COMPLETION], p[BUFFER], p[MEMORY]);
}

static uint32_t call_model(void) {
    uint8_t *p[SLICES];
    for (uint32_t i = 0; i < SLICES; i++) p[i] = from(i, slices[i].twin);
    return call(&modelled, p[ENTRY], p[COMPLETION], p[BUFFER], p[MEMORY]);
}

/* every slice, with what stands before it and behind it */
static void compare(void) {
    static const char *const names[SLICES] = {"entry and 64 bytes before", "completion and 64 bytes before", "data buffer and 64 bytes before",
                                              "working memory and 64 bytes before"};
    for (uint32_t i = 0; i < SLICES; i++)
        bytes(names[i], from(i, slices[i].end) - SPARE, from(i, slices[i].twin) - SPARE, SPARE + slices[i].have + slices[i].gap);
}

/* The same call on the same bytes, but for those of the entry that are not read, which are turned, and for the upper bits of the phase: what
 * comes out is the same. After a number that is so with every byte of the entry turned. */
static void give_again(uint32_t got, uint8_t kept[SLICES][REGION]) {
    for (uint32_t i = COMPLETION; i < SLICES; i++) memcpy(from(i, slices[i].end) - SPARE, kept[i], SPARE + slices[i].have + slices[i].gap);
    for (size_t i = 0; i < slices[ENTRY].have; i++) {
        if (got == 0 && ((i >= 2 && i < 8) || (i >= 40 && i < 52))) continue;
        from(ENTRY, slices[ENTRY].end)[i] ^= 0xff;
        from(ENTRY, slices[ENTRY].twin)[i] ^= 0xff;
    }
    ask.phase ^= 2 * below(1 << 15);
    number("number again", call_device(), got);
    compare();
    again[ask.kind]++;
}

/* ---- what it is to give */

static uint32_t causes(void) {
    size_t m = slices[MEMORY].len;
    uint32_t all = (slices[ENTRY].len != 64) << ENTRY_LENGTH | (slices[COMPLETION].len != 16) << COMPLETION_LENGTH;
    all |= (m > LARGEST || m % 4 != 0) << MEMORY_LENGTH | (ask.named != ask.id) << OTHER_ID | ((ask.start | ask.length) % 4 != 0) << ODD;
    all |= ((unsigned __int128)ask.start + ask.length > m) << PAST;
    return all | (ask.kind != FILL && slices[BUFFER].len < ask.length) << SHORT;
}

static void count(uint32_t all, uint32_t first) {
    uint64_t *n = shapes[ask.kind], m = slices[MEMORY].len, sum = ask.start + ask.length;
    int tight = slices[MEMORY].gap == 0 && m == slices[MEMORY].have && (ask.kind == FILL || slices[BUFFER].gap == 0);
    met[ask.kind][first]++;
    if (first < CAUSES) hid[ask.kind][first] += (first == MEMORY_LENGTH ? all >> OTHER_ID : all >> (first + 1) & 1) != 0;
    if (first == MEMORY_LENGTH) n[TOO_LARGE] += m % 4 == 0, n[UNEVEN] += m <= LARGEST;
    if (first == ODD) n[BY_START] += ask.length % 4 == 0, n[BY_LENGTH] += ask.start % 4 == 0;
    if (first == PAST) { /* apart: what would pass with 32 bits of the start, 16 of the length, a sum of 32 bits, a sum of 64 */
        uint32_t lower = (uint64_t)(uint32_t)ask.start + ask.length <= m ? LOWER_START : ask.start + ask.length % 65536 <= m ? LOWER_LENGTH : PLAIN;
        n[sum <= m ? WRAPS : lower != PLAIN ? lower : (uint32_t)sum > m ? PLAIN : ask.length >> 31 ? SUM_LENGTH : SUM_START]++;
        n[BEYOND] += ask.length == 0 && ask.start == m + 4;
    }
    if (first < CAUSES) return;
    n[AT_END] += ask.length == 0 && ask.start == m && m > 0;
    n[WHOLE] += ask.length == m && m > 0;
    n[NO_BYTE] += m == 0;
    n[TIGHT] += tight && sum == m && ask.length > 0;
}

void as_lent(void) {
    for (size_t i = 0; i < slices[MEMORY].have; i++) last[i] = (struct written){0, READ, from(MEMORY, slices[MEMORY].end)[i]};
}

/* after a success: what the call wrote is written down, or what it read compared with that */
static void remember(void) {
    const uint8_t *d = from(BUFFER, slices[BUFFER].end);
    struct written *range = last + ask.start;
    uint32_t kinds = 0, several = 0;
    for (uint32_t i = 0; i < ask.length; i++) {
        if (ask.kind != READ) {
            over += range[i].call > 0;
            range[i] = (struct written){calls, ask.kind, ask.kind == WRITE ? d[i] : ask.fill >> 8 * (i % 4)};
            continue;
        }
        if (d[i] != range[i].byte) {
            printf("byte %llu of the memory was last written by call %llu\n", (unsigned long long)ask.start + i, (unsigned long long)range[i].call);
            differ("working memory as it was last written", d[i], range[i].byte);
        }
        kinds |= 1u << range[i].kind;
        several |= range[i].call != range->call;
    }
    for (uint32_t k = 0; k < KINDS; k++) sources[k] += kinds >> k & 1;
    joined += several;
}

void give(void) {
    static const char *const names[KINDS] = {"kv_memory_read", "kv_memory_write", "kv_memory_fill"};
    static const uint8_t answers[CAUSES + 1] = {1, 2, 20, 0x0b, 0x02, 0x80, 0x04, 0x00};
    static uint8_t kept[SLICES][REGION];
    static char what[120];
    uint32_t all = causes(), first = __builtin_ctz(all | 1u << CAUSES), repeated = one_in(4);
    snprintf(what, sizeof what, "%s of id %x, lent %zu, %zu, %zu and %zu bytes", names[ask.kind], ask.id, slices[ENTRY].len,
             slices[COMPLETION].len, slices[BUFFER].len, slices[MEMORY].len);
    doing = what;
    for (uint32_t i = COMPLETION; i < SLICES && repeated; i++) memcpy(kept[i], from(i, slices[i].end) - SPARE, SPARE + slices[i].have + slices[i].gap);
    uint32_t got = call_device();
    numbered(got, call_model());
    compare();
    number("number for its first fault", got, first <= MEMORY_LENGTH ? answers[first] : 0);
    if (got == 0) number("last word for its first fault", get16(from(COMPLETION, slices[COMPLETION].end) + 14), ask.phase % 2 + 2 * answers[first]);
    count(all, first);
    if (first == CAUSES) remember();
    if (repeated) give_again(got, kept);
}

/* ---- counters */

int report_memory(void) {
    static const char *const names[KINDS] = {"Reads", "Writes", "Fills"};
    static const char *const before[SHORT] = {"\n  1 before 2:", ", 2 before 20:", ", 20 before a status:", ", 0Bh before 02h:", ", 02h before 80h:",
                                              ", 80h before 04h:"};
    int missing = 0;
    for (uint32_t k = 0; k < KINDS; k++) {
        const uint64_t *n = shapes[k];
        printf("memory %s", names[k]);
        missing += told(":", met[k] + CAUSES, 1) + told("; of the whole:", n + WHOLE, 1) + told(", of no byte at its end:", n + AT_END, 1);
        missing += told(", one word beyond, 80h:", n + BEYOND, 1) + told("; of memory without a byte:", n + NO_BYTE, 1);
        missing += told(", to the edge:", n + TIGHT, 1) + told("; again with other bytes unread:", again + k, 1);
        missing += told("\n  refused: 1, 2:", met[k], 2) + told("; 20 too large, no multiple of 4:", n + TOO_LARGE, 2) + told("; 0Bh:", met[k] + OTHER_ID, 1);
        missing += told("; 02h by start, by length:", n + BY_START, 2) + told("; 80h plain:", n + PLAIN, 1);
        missing += told(", by upper bits alone of a start, of a length:", n + LOWER_START, 2);
        missing += told(", of a sum near 2^32 by start, by length:", n + SUM_START, 2) + told(", of a sum near 2^64:", n + WRAPS, 1);
        if (k != FILL) missing += told("; 04h:", met[k] + SHORT, 1);
        for (uint32_t i = 0; i < (k == FILL ? PAST : SHORT); i++) missing += told(before[i], hid[k] + i, 1);
        printf("\n");
    }
    missing += told("memory read as it was lent, written, filled:", sources, KINDS) + told("; by several calls:", &joined, 1);
    missing += told("; bytes written over:", &over, 1);
    printf("\n");
    return missing;
}
