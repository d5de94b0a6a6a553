/* Working memory: a Write read back, Fills, ranges up to the end and past it, each refusal before the next, sums that 32 or 64 bits would not
 * hold, bytes of the entry that are not read, memory without a byte and of the most bytes. After each call every byte lent is compared. */
#include "cases.h"

enum { MOST = 65536, SMALL = 16, ID = 0x1a2b3c4d, FILL = 0x11223344 };

static uint8_t memory[MOST + SPARE], before[MOST + SPARE], buffer[MOST + SPARE], brought[MOST + SPARE], given_entry[64];
static const char *const all = "rwf"; /* Read, Write and Fill, by their letters */
static uint32_t own = ID;             /* the memory's id */

/* rubbish but for the fields, which stand where the papers have them */
static void enter(uint32_t id, uint64_t start, uint32_t length) {
    memset(entry, 0xee, 64);
    memcpy(entry + 2, "\x34\x12", 2);
    memcpy(entry + 4, &id, 4);
    memcpy(entry + 40, &start, 8);
    memcpy(entry + 48, &length, 4);
}

/* A call with what is in `entry`, `buffer` and `memory`, on a completion of bytes 5Ah. The entry is left as it was, and so is what the call is
 * not to write: the memory of a Read, the buffer of the others. */
static uint32_t call(char letter, size_t entry_len, size_t completion_len, size_t room, size_t size, uint16_t phase) {
    const uint8_t *e = entry_len > 0 ? entry : 0;
    uint8_t *c = completion_len > 0 ? completion : 0, *d = room > 0 ? buffer : 0, *m = size > 0 ? memory : 0;
    uint32_t number;
    memset(completion, 0x5a, 16);
    memcpy(given_entry, entry, 64);
    memcpy(before, memory, sizeof memory);
    memcpy(brought, buffer, sizeof buffer);
    if (letter == 'r') number = kv_memory_read(e, entry_len, c, completion_len, d, room, m, size, own, 0x0102, 0x0304, phase);
    else if (letter == 'w') number = kv_memory_write(e, entry_len, c, completion_len, d, room, m, size, own, 0x0102, 0x0304, phase);
    else number = kv_memory_fill(e, entry_len, c, completion_len, FILL, m, size, own, 0x0102, 0x0304, phase);
    expect("memory: entry only read", memcmp(entry, given_entry, 64) == 0);
    if (letter == 'r') expect("memory: only read", memcmp(memory, before, sizeof memory) == 0);
    else expect("memory: buffer only read", memcmp(buffer, brought, sizeof buffer) == 0);
    return number;
}

static int unchanged(void) { return memcmp(memory, before, sizeof memory) == 0 && memcmp(buffer, brought, sizeof buffer) == 0; }

/* a whole completion; `word` is its last two bytes */
static int completed(const char *word) {
    return memcmp(completion, "\0\0\0\0\0\0\0\0\2\1\4\3\x34\x12", 14) == 0 && memcmp(completion + 14, word, 2) == 0;
}

static int is(const uint8_t *p, const char *want, size_t n) {
    for (size_t i = n; i < n + SPARE; i++)
        if (p[i] != 0x5a) return 0;
    return memcmp(p, want, n) == 0;
}

static void soil(const char *in_memory) {
    memset(memory, 0x5a, sizeof memory);
    memset(buffer, 0x5a, sizeof buffer);
    memcpy(memory, in_memory, SMALL);
}

/* What succeeds, one after the other on 16 bytes: the whole memory behind each, and the whole buffer. A Write brings "0123456789+-", a Read
 * finds dots. */
static const struct deed {
    const char *what;
    char letter;
    uint64_t start;
    uint32_t length;
    size_t room;
    const char *memory, *buffer;
} deeds[] = {
    {"a Write", 'w', 4, 8, 12, "abcd01234567mnop", "0123456789+-"},
    {"is read back", 'r', 4, 8, 12, "abcd01234567mnop", "01234567...."},
    {"with what stands behind it", 'r', 8, 8, 12, "abcd01234567mnop", "4567mnop...."},
    {"and before it, into just as many bytes", 'r', 0, 8, 8, "abcd01234567mnop", "abcd0123...."},
    {"up to the end", 'r', 4, 12, 12, "abcd01234567mnop", "01234567mnop"},
    {"a Fill, the lowest byte first", 'f', 8, 8, 0, "abcd0123\x44\x33\x22\x11\x44\x33\x22\x11", "0123456789+-"},
    {"a Fill of one word", 'f', 0, 4, 0, "\x44\x33\x22\x11" "0123\x44\x33\x22\x11\x44\x33\x22\x11", "0123456789+-"},
    {"a Write over part of it", 'w', 12, 4, 4, "\x44\x33\x22\x11" "0123\x44\x33\x22\x11" "0123", "0123456789+-"},
    {"both read", 'r', 8, 8, 9, "\x44\x33\x22\x11" "0123\x44\x33\x22\x11" "0123", "\x44\x33\x22\x11" "0123...."},
    {"a Read of no byte at the end", 'r', 16, 0, 0, "\x44\x33\x22\x11" "0123\x44\x33\x22\x11" "0123", "............"},
    {"a Write of no byte at the end", 'w', 16, 0, 12, "\x44\x33\x22\x11" "0123\x44\x33\x22\x11" "0123", "0123456789+-"},
    {"a Fill of no byte at the end", 'f', 16, 0, 0, "\x44\x33\x22\x11" "0123\x44\x33\x22\x11" "0123", "0123456789+-"},
    {"a Read of no byte", 'r', 4, 0, 12, "\x44\x33\x22\x11" "0123\x44\x33\x22\x11" "0123", "............"},
    {"a Fill of all", 'f', 0, 16, 0, "\x44\x33\x22\x11\x44\x33\x22\x11\x44\x33\x22\x11\x44\x33\x22\x11", "0123456789+-"},
    {"a Write from a buffer of more than 32 bits", 'w', 4, 4, 1ull << 32, "\x44\x33\x22\x11" "0123\x44\x33\x22\x11\x44\x33\x22\x11", "0123456789+-"},
    {"a Read into one", 'r', 4, 4, 1ull << 32, "\x44\x33\x22\x11" "0123\x44\x33\x22\x11\x44\x33\x22\x11", "0123........"},
};

static void done(void) {
    soil("abcdefghijklmnop");
    for (size_t i = 0; i < sizeof deeds / sizeof *deeds; i++) {
        const struct deed *d = deeds + i;
        memcpy(buffer, d->letter == 'r' ? "............" : "0123456789+-", 12);
        enter(ID, d->start, d->length);
        expect(d->what, call(d->letter, 64, 16, d->room, SMALL, 1) == 0 && completed("\1\0"));
        expect(d->what, is(memory, d->memory, SMALL) && is(buffer, d->buffer, 12));
    }
}

/* What is refused on 16 bytes, by each call in `letters`: the status, twice as much and the phase with it, and nothing else is written. */
static const struct refusal {
    const char *letters;
    uint32_t id;
    uint64_t start;
    uint32_t length;
    size_t room;
    const char *word;
} refusals[] = {
    {"rwf", ID, 20, 0, 12, "\1\1"}, /* 80h alone: one word beyond the end, and ranges that leave it */
    {"rwf", ID, 16, 4, 12, "\1\1"}, {"rwf", ID, 12, 8, 12, "\1\1"}, {"rwf", ID, 0, 20, 20, "\1\1"}, {"rwf", ID, 4, 16, 16, "\1\1"},
    {"rwf", ID, 0xfffffffffffffffc, 4, 12, "\1\1"}, /* a sum of 0 and more in 64 bits */
    {"rwf", ID, 0xfffffffffffffffc, 8, 12, "\1\1"},
    {"rwf", ID, 0xfffffffffffffff0, 32, 32, "\1\1"},
    {"rwf", ID, 0xfffffffffffffffc, 0, 12, "\1\1"},
    {"rwf", ID, 1ull << 32, 0, 12, "\1\1"}, /* a start whose lower word would do */
    {"rwf", ID, (1ull << 32) + 4, 4, 12, "\1\1"},
    {"rwf", ID, 1ull << 40, 4, 12, "\1\1"}, {"rwf", ID, 1ull << 48, 4, 12, "\1\1"}, {"rwf", ID, 1ull << 63, 4, 12, "\1\1"},
    {"rwf", ID, 0xfffffffc, 4, 12, "\1\1"}, /* a sum of 0 and more in 32 bits */
    {"rwf", ID, 0xfffffffc, 8, 12, "\1\1"},
    {"rwf", ID, 4, 0xfffffffc, 0xfffffffc, "\1\1"},
    {"rwf", ID, 8, 0xfffffffc, 12, "\1\1"},
    {"rwf", ID, 0, 0x100, 0x100, "\1\1"}, {"rwf", ID, 0, 0x10004, 0x10004, "\1\1"}, {"rwf", ID, 0, 0x80000004, 12, "\1\1"},
    {"rwf", ID, 1, 4, 12, "\5\0"}, /* 02h alone, by the start, by the length, by both though their sum is a multiple of 4 */
    {"rwf", ID, 2, 4, 12, "\5\0"}, {"rwf", ID, 7, 0, 12, "\5\0"},
    {"rwf", ID, 4, 1, 12, "\5\0"}, {"rwf", ID, 4, 2, 12, "\5\0"}, {"rwf", ID, 4, 7, 12, "\5\0"},
    {"rwf", ID, 2, 2, 12, "\5\0"},
    {"rwf", ID, 18, 0, 12, "\5\0"}, /* before 80h */
    {"rwf", ID, 16, 2, 12, "\5\0"},
    {"rwf", ID, 0xffffffffffffffff, 4, 12, "\5\0"}, {"rwf", ID, 0, 0xffffffff, 12, "\5\0"},
    {"rwf", ID ^ 1, 4, 8, 12, "\x17\0"}, /* 0Bh alone, by each byte of the id */
    {"rwf", ID ^ 0x100, 4, 8, 12, "\x17\0"}, {"rwf", ID ^ 0x10000, 4, 8, 12, "\x17\0"}, {"rwf", ID ^ 0x80000000, 4, 8, 12, "\x17\0"},
    {"rwf", 0, 16, 0, 12, "\x17\0"}, {"rwf", 0xffffffff, 4, 8, 12, "\x17\0"},
    {"rwf", ID ^ 1, 2, 8, 12, "\x17\0"}, /* before 02h, and 80h, and 04h */
    {"rwf", ID ^ 1, 4, 6, 12, "\x17\0"}, {"rwf", ID ^ 1, 20, 8, 12, "\x17\0"}, {"rw", ID ^ 1, 4, 8, 0, "\x17\0"},
    {"rw", ID, 2, 8, 4, "\5\0"}, /* 02h before 04h */
    {"rw", ID, 4, 2, 0, "\5\0"},
    {"rw", ID, 12, 8, 4, "\1\1"}, /* 80h before 04h */
    {"rw", ID, 0xfffffffffffffffc, 8, 0, "\1\1"},
    {"rw", ID, 4, 8, 7, "\x09\0"}, /* 04h alone */
    {"rw", ID, 4, 8, 4, "\x09\0"}, {"rw", ID, 4, 8, 0, "\x09\0"}, {"rw", ID, 0, 16, 15, "\x09\0"},
};

static void refused(void) {
    soil("abcdefghijklmnop");
    for (size_t i = 0; i < sizeof refusals / sizeof *refusals; i++) {
        const struct refusal *r = refusals + i;
        for (const char *letter = r->letters; *letter != 0; letter++) {
            enter(r->id, r->start, r->length);
            int ok = call(*letter, 64, 16, r->room, SMALL, 1) == 0 && completed(r->word) && unchanged();
            if (!ok) printf("refusal %d of '%c': status word %02x %02x\n", (int)i, *letter, completion[14], completion[15]);
            expect("memory: status in its order, and nothing else written", ok);
        }
    }
}

/* Numbers, one fault fewer from row to row, then alone; the entry has faults of its own, which only the last row comes to. */
static void numbers(void) {
    static const struct { size_t entry, completion, memory; uint32_t number; } rows[] = {
        {0, 0, 18, 1}, {63, 15, 18, 1}, {65, 16, MOST + 4, 1}, {64 + 256, 16, SMALL, 1}, {(1ull << 32) + 64, 16, SMALL, 1}, {0, 16, 0, 1},
        {64, 15, 18, 2}, {64, 17, MOST + 4, 2}, {64, 0, SMALL, 2}, {64, 16 + 256, SMALL, 2}, {64, (1ull << 32) + 16, SMALL, 2},
        {64, 16, 17, 20}, {64, 16, 18, 20}, {64, 16, 19, 20}, {64, 16, 1, 20}, {64, 16, MOST - 1, 20}, {64, 16, MOST + 1, 20},
        {64, 16, MOST + 4, 20}, {64, 16, 2 * MOST, 20}, {64, 16, (1ull << 32) + SMALL, 20}, {64, 16, 1ull << 63, 20}, {64, 16, -(size_t)4, 20},
    };
    soil("abcdefghijklmnop");
    enter(ID ^ 1, 2, 2);
    for (size_t i = 0; i < sizeof rows / sizeof *rows; i++)
        for (const char *letter = all; *letter != 0; letter++) {
            uint32_t number = call(*letter, rows[i].entry, rows[i].completion, 12, rows[i].memory, 1);
            int kept = unchanged() && memcmp(completion, "ZZZZZZZZZZZZZZZZ", 16) == 0;
            if (number != rows[i].number || !kept) printf("row %d of '%c': number %u\n", (int)i, *letter, number);
            expect("memory: number in its order, and nothing written", number == rows[i].number && kept);
        }
    for (const char *letter = all; *letter != 0; letter++)
        expect("memory: behind the numbers, 0Bh", call(*letter, 64, 16, 12, SMALL, 1) == 0 && completed("\x17\0") && unchanged());
}

/* each byte that is not read, turned alone: the opcode and the fused bits, and what stands between the fields */
static void unread(void) {
    for (int at = 0; at < 64; at++) {
        if ((at >= 2 && at < 8) || (at >= 40 && at < 52)) continue;
        soil("abcdefghijklmnop");
        for (const char *letter = "rfw"; *letter != 0; letter++) {
            memcpy(buffer, *letter == 'r' ? "............" : "0123456789+-", 12);
            enter(ID, 4, 8);
            entry[at] ^= 0xff;
            expect("memory: a byte not read", call(*letter, 64, 16, 12, SMALL, 1) == 0 && completed("\1\0"));
            if (*letter == 'r') expect("memory: read all the same", is(buffer, "efghijkl....", 12));
            if (*letter == 'f') expect("memory: filled all the same", is(memory, "abcd\x44\x33\x22\x11\x44\x33\x22\x11mnop", SMALL));
        }
        expect("memory: written all the same", is(memory, "abcd01234567mnop", SMALL));
    }
}

/* Of the phase the lowest bit counts; and what is no id of a namespace is one of a memory like any other. */
static void phases_and_ids(void) {
    static const struct { uint32_t own; uint16_t phase; const char *good, *bad; } rows[]
        = {{ID, 0, "\0\0", "\0\1"}, {0, 1, "\1\0", "\1\1"}, {0xffffffff, 2, "\0\0", "\0\1"},
           {0, 3, "\1\0", "\1\1"}, {ID, 0xfffe, "\0\0", "\0\1"}, {ID, 0xffff, "\1\0", "\1\1"}};
    for (size_t i = 0; i < sizeof rows / sizeof *rows; i++)
        for (const char *letter = all; *letter != 0; letter++) {
            own = rows[i].own;
            enter(own, 0, 4);
            expect("memory: phase and id", call(*letter, 64, 16, 4, SMALL, rows[i].phase) == 0 && completed(rows[i].good));
            enter(own, 16, 4);
            expect("memory: phase and id beside 80h", call(*letter, 64, 16, 4, SMALL, rows[i].phase) == 0 && completed(rows[i].bad));
        }
}

/* memory of no bytes, behind a null pointer: what is refused and what is not are the same */
static void nothing(void) {
    static const struct { uint32_t id, start, length; const char *word; } rows[]
        = {{ID, 0, 0, "\1\0"}, {ID, 4, 0, "\1\1"}, {ID, 0, 4, "\1\1"}, {ID, 0, 2, "\5\0"}, {ID ^ 1, 0, 0, "\x17\0"}};
    for (size_t i = 0; i < sizeof rows / sizeof *rows; i++)
        for (const char *letter = all; *letter != 0; letter++) {
            enter(rows[i].id, rows[i].start, rows[i].length);
            expect("memory: of no bytes", call(*letter, 64, 16, rows[i].length, 0, 1) == 0 && completed(rows[i].word) && unchanged());
        }
}

static int answers(char letter, uint64_t start, uint32_t length, const char *word) {
    enter(ID, start, length);
    return call(letter, 64, 16, length, MOST, 1) == 0 && completed(word);
}

static void most(void) {
    static uint8_t pattern[MOST];
    for (uint32_t i = 0; i < MOST; i++) pattern[i] = i * 2654435761u >> 13;
    soil("abcdefghijklmnop");
    memcpy(buffer, pattern, MOST);
    expect("most: written", answers('w', 0, MOST, "\1\0") && is(memory, (const char *)pattern, MOST));
    memset(buffer, 0x5a, MOST);
    expect("most: read", answers('r', 0, MOST, "\1\0") && is(buffer, (const char *)pattern, MOST));
    memcpy(pattern + MOST - 4, "\x44\x33\x22\x11", 4);
    expect("most: its last word", answers('f', MOST - 4, 4, "\1\0") && is(memory, (const char *)pattern, MOST));
    expect("most: past it", answers('w', MOST - 4, 8, "\1\1") && answers('w', MOST, 4, "\1\1") && is(memory, (const char *)pattern, MOST));
    expect("most: no byte at its end", answers('w', MOST, 0, "\1\0") && answers('w', MOST + 4, 0, "\1\1"));
}

void memories(void) {
    done();
    refused();
    numbers();
    unread();
    phases_and_ids();
    nothing();
    most();
}
