/* A morning in the yard: the host asks what the cabinet has room for; each click of the pliers stores a tag's record; in the
 * evening the host walks the store, prints the tally and shows how full the cabinet is. Host and cabinet are one program here, so
 * an entry goes from kv_build straight to kv_command, and a page from kv_identify to kv_read_identify. */
#include "kv.h"

int printf(const char *, ...);
void *memcpy(void *, const void *, size_t);
int memcmp(const void *, const void *, size_t);
size_t strlen(const char *);

enum { FORMAT = 3, NAMESPACE = 1, SIZE = 4096, PAGE = 44 }; /* tags of up to 16 bytes, records of up to 64, at most 1024 tags */

static uint8_t directory[64 + 32 * 1024], values[SIZE], data[64];

static const char *const morning[][2] = {
    {"ES-0417-0091", "ear, left"},  {"ES-0417-0088", "ear, left"},      {"ES-0417-0102", "ear, right"},
    {"ES-0417-0091", "ear, right"}, {"ES-0417-0095", "ear, left"},      {"ES-0417-0009", "lamb of 0088"},
    {"ES-0417-0113", "ear, left"},  {"ES-0417-0088", "left; dosed"},    {"FR-22-7", "bought in"},
    {"FR-22-70", "bought in"},      {"ES-0417-01", "click in the air"}, {"ES-0417-0120", "ear, left"},
};

/* asked once, before the first click: the page says which format the namespace has, and what each format allows */
static int limits(void) {
    static uint8_t page[4096];
    uint32_t number = kv_identify(page, sizeof page, NAMESPACE, directory, sizeof directory, values, sizeof values);
    struct kv_identity own = kv_read_identify(page, sizeof page, 0), most = kv_read_identify(page, sizeof page, own.index);
    if (number != KV_DONE || own.number != KV_DONE || most.number != KV_DONE) {
        printf("limits refused: numbers %u, %u, %u\n", number, own.number, most.number);
        return 0;
    }
    printf("format %u, one of %u: at most %u tags of %u bytes and records of %u, %llu bytes in all\n", own.index, own.formats,
           most.maxkeys, most.keymax, most.valuemax, (unsigned long long)own.size);
    return 1;
}

/* one command from its entry to its completion */
static struct kv_completion ask(uint8_t opcode, const void *key, size_t len, uint32_t amount) {
    static uint16_t cid;
    uint8_t entry[64], completion[16];
    struct kv_completion refused = {.number = kv_build(entry, sizeof entry, opcode, ++cid, NAMESPACE, key, len, amount, 0)};
    if (refused.number == KV_DONE)
        refused.number = kv_command(entry, sizeof entry, completion, sizeof completion, data, sizeof data, directory,
                                    sizeof directory, values, sizeof values, cid, 1, 1);
    return refused.number != KV_DONE ? refused : kv_read_completion(completion, sizeof completion);
}

static int done(struct kv_completion c) {
    if (c.number != KV_DONE || c.status != KV_SUCCESS) printf("refused: number %u, status %02xh\n", c.number, c.status);
    return c.number == KV_DONE && c.status == KV_SUCCESS;
}

static int print(const struct kv_page_key *tag) {
    struct kv_completion c = ask(KV_RETRIEVE, tag->key, tag->len, sizeof data);
    if (!done(c)) return 0;
    printf("%-16.*s %.*s\n", (int)tag->len, (const char *)tag->key, (int)c.dword0, (const char *)data);
    return 1;
}

/* Each List begins at the last tag seen, which its page repeats if it is still held; a page without a new tag is the last. A page
 * of 44 bytes has room for two tags of any length, so that each one before it brings a tag. */
static int tally(uint32_t *count) {
    struct kv_page_key last = {0};
    uint32_t before;
    *count = 0;
    do {
        uint8_t page[PAGE];
        uint32_t keys = 1;
        before = *count;
        if (!done(ask(KV_LIST, last.key, last.len, PAGE))) return 0;
        memcpy(page, data, PAGE); /* Retrieve uses the same buffer */
        for (uint32_t i = 0; i < keys; i++) {
            struct kv_page_key tag = kv_read_page(page, PAGE, i);
            if (tag.number != KV_DONE) {
                printf("page refused: number %u\n", tag.number);
                return 0;
            }
            keys = tag.count;
            if (keys == 0 || (tag.len == last.len && memcmp(tag.key, last.key, tag.len) == 0)) continue;
            if (!print(&tag)) return 0;
            last = tag;
            ++*count;
        }
    } while (*count > before);
    return 1;
}

/* how full the store is; the tally and the poll count the same tags */
static int bar(uint32_t tags) {
    struct kv_room room = kv_used(NAMESPACE, directory, sizeof directory, values, sizeof values);
    if (room.number != KV_DONE || room.keys != tags) {
        printf("poll: number %u, %u tags\n", room.number, room.keys);
        return 0;
    }
    printf("used %u of %u bytes, %u tags\n", room.used, SIZE, room.keys);
    return 1;
}

int main(void) {
    uint32_t count;
    if (kv_format(FORMAT, NAMESPACE, SIZE, directory, sizeof directory, values, sizeof values) != KV_DONE) return 1;
    if (!limits()) return 1;
    for (size_t i = 0; i < sizeof morning / sizeof *morning; i++) {
        size_t n = strlen(morning[i][1]);
        memcpy(data, morning[i][1], n);
        if (!done(ask(KV_STORE, morning[i][0], strlen(morning[i][0]), n))) return 1;
    }
    if (!done(ask(KV_DELETE, "ES-0417-01", 10, 0))) return 1;
    if (!tally(&count) || !bar(count)) return 1;
    return 0;
}
