/* The weighing head of a cattle scale has working memory for its scratch room. While an animal is on the platform the readings swing with its
 * steps; each is written as it comes in, and when the animal has left, its row is read back and averaged. A word without a reading
 * holds a pattern that no weight has. Entries for working memory are built by hand: four fields in 64 bytes. */
#include "kv.h"

int printf(const char *, ...);

enum { SCRATCH = 9, ROWS = 8, READINGS = 8, ROW = 4 * READINGS }; /* a row for each animal, a word for each reading */
enum command { READ, WRITE, FILL };

static const uint32_t none = 0xffffffff;

static uint8_t memory[ROWS * ROW], data[ROW];

static const struct animal {
    const char *tag;
    uint32_t grams[READINGS + 1]; /* 0 behind the last */
} herd[] = {
    {"ES-0417-0091", {611350, 613900, 610800, 612600, 611950}},
    {"ES-0417-0102", {548200, 551450, 549300}},
    {"FR-22-7", {402750, 398100, 401600, 399950, 400300, 400850, 400150, 400250}},
}, again = {"ES-0417-0102", {549650, 549750, 549700, 549720}};

static void put(uint8_t *at, uint64_t n, size_t bytes) {
    for (size_t i = 0; i < bytes; i++) at[i] = (uint8_t)(n >> 8 * i);
}

/* one command on a range of the scratch room, from its entry to its completion */
static struct kv_completion ask(enum command what, uint32_t id, uint64_t start, uint32_t len) {
    static uint16_t cid;
    uint8_t entry[64] = {0}, completion[16];
    put(entry + 2, ++cid, 2);
    put(entry + 4, id, 4);
    put(entry + 40, start, 8);
    put(entry + 48, len, 4);
    uint32_t number;
    if (what == READ)
        number = kv_memory_read(entry, sizeof entry, completion, sizeof completion, data, sizeof data, memory, sizeof memory, SCRATCH, cid, 1, 1);
    else if (what == WRITE)
        number = kv_memory_write(entry, sizeof entry, completion, sizeof completion, data, sizeof data, memory, sizeof memory, SCRATCH, cid, 1, 1);
    else
        number = kv_memory_fill(entry, sizeof entry, completion, sizeof completion, none, memory, sizeof memory, SCRATCH, cid, 1, 1);
    return number == KV_DONE ? kv_read_completion(completion, sizeof completion) : (struct kv_completion){.number = number};
}

/* whether a command ended as it should */
static int ended(struct kv_completion c, uint8_t status) {
    if (c.number != KV_DONE || c.status != status) printf("number %u, status %02xh\n", c.number, c.status);
    return c.number == KV_DONE && c.status == status;
}

/* the row is cleared, whatever it held, and the readings come in one by one */
static int step_on(uint32_t row, const struct animal *a) {
    if (!ended(ask(FILL, SCRATCH, row * ROW, ROW), KV_SUCCESS)) return 0;
    for (uint32_t i = 0; a->grams[i] != 0; i++) {
        put(data, a->grams[i], 4);
        if (!ended(ask(WRITE, SCRATCH, row * ROW + 4 * i, 4), KV_SUCCESS)) return 0;
    }
    return 1;
}

/* the row's average, to the nearest gram */
static int step_off(uint32_t row, const char *tag) {
    uint64_t sum = 0, count = 0;
    if (!ended(ask(READ, SCRATCH, row * ROW, ROW), KV_SUCCESS)) return 0;
    for (const uint8_t *at = data; at < data + ROW; at += 4) {
        uint32_t grams = at[0] | at[1] << 8 | at[2] << 16 | (uint32_t)at[3] << 24;
        if (grams != none) sum += grams, count++;
    }
    unsigned mean = count == 0 ? 0 : (unsigned)((sum + count / 2) / count);
    if (count == 0) printf("row %u  %-12s  no reading yet\n", row, tag);
    else printf("row %u  %-12s  %u.%03u kg from %u readings\n", row, tag, mean / 1000, mean % 1000, (unsigned)count);
    return 1;
}

static int refused(const char *what, struct kv_completion c, uint8_t status) {
    printf("%s: status %02xh\n", what, c.status);
    return ended(c, status);
}

int main(void) {
    uint32_t animals = sizeof herd / sizeof *herd;
    if (!ended(ask(FILL, SCRATCH, 0, sizeof memory), KV_SUCCESS)) return 1;
    for (uint32_t i = 0; i < animals; i++)
        if (!step_on(i, herd + i) || !step_off(i, herd[i].tag)) return 1;
    if (!step_off(animals, "nobody")) return 1;
    printf("%s once more: she would not stand still\n", again.tag);
    if (!step_on(1, &again)) return 1;
    for (uint32_t i = 0; i < animals; i++)
        if (!step_off(i, herd[i].tag)) return 1;
    return !refused("a row behind the last", ask(READ, SCRATCH, sizeof memory, ROW), KV_OUT_OF_RANGE)
        || !refused("half a reading", ask(WRITE, SCRATCH, 0, 2), KV_INVALID_FIELD)
        || !refused("another memory", ask(READ, SCRATCH + 1, 0, ROW), KV_INVALID_NAMESPACE);
}
