/* Two farms share a cabinet: each has a namespace of its own, with its own format and its own room, and both have a tag 0417. In the
 * evening each farm's tally is drawn up while the other one is still busy with the pliers, and neither sees a thing of the other. At night a
 * gate between them lets an animal through where its tag is known: it has no time for a command, and asks for the tag alone. */
#include "kv.h"

int printf(const char *, ...);
void *memcpy(void *, const void *, size_t);
int memcmp(const void *, const void *, size_t);
size_t strlen(const char *);

enum { HILL = 1, MEADOW = 2, PAGE = 20 }; /* two tags of four bytes to a page */
enum { HILL_FORMAT = 4, HILL_SIZE = 2048, MEADOW_FORMAT = 8, MEADOW_SIZE = 6144 }; /* 256 tags with short records, 64 with longer ones */

static uint8_t directory[64 + 32 * (256 + 64)], values[HILL_SIZE + MEADOW_SIZE], data[64];

/* one command to a farm's namespace; whether it was carried out, and if so Dword 0 */
static int ask(uint32_t farm, uint8_t opcode, const void *key, size_t len, uint32_t amount, uint32_t *dword0) {
    static uint16_t cid;
    uint8_t entry[64], completion[16];
    uint32_t number = kv_build(entry, sizeof entry, opcode, ++cid, farm, key, len, amount, 0);
    if (number == KV_DONE)
        number = kv_command(entry, sizeof entry, completion, sizeof completion, data, sizeof data, directory, sizeof directory, values,
                            sizeof values, cid, 1, 1);
    struct kv_completion c = kv_read_completion(completion, number == KV_DONE ? sizeof completion : 0);
    if (number != KV_DONE || c.status != KV_SUCCESS) printf("farm %u refused: number %u, status %02xh\n", farm, number, c.status);
    *dword0 = c.dword0;
    return number == KV_DONE && c.status == KV_SUCCESS;
}

static int click(uint32_t farm, const char *tag, const char *record) {
    uint32_t none;
    memcpy(data, record, strlen(record));
    return ask(farm, KV_STORE, tag, strlen(tag), strlen(record), &none);
}

static int print(uint32_t farm, const struct kv_page_key *tag) {
    uint32_t len;
    if (!ask(farm, KV_RETRIEVE, tag->key, tag->len, sizeof data, &len)) return 0;
    printf("  %-8.*s %.*s\n", (int)tag->len, (const char *)tag->key, (int)len, (const char *)data);
    return 1;
}

/* what the other farm does between two Lists of a walk: tags in front of where that walk is, behind it, and on the way */
static int meanwhile(uint32_t farm) {
    static const char *const late[2][3][2] = {{{"0001", "lamb of 0388"}, {"0417", "ewe; dosed"}, {"9999", "ram, bought in"}},
                                              {{"0001", "calf of 0502"}, {"0417", "cow; dosed"}, {"9999", "bull, bought in"}}};
    static size_t clicks[2];
    const char *const *one = late[farm - HILL][clicks[farm - HILL]++ % 3];
    return click(farm, one[0], one[1]);
}

/* how full a farm's part is, and that it holds as many tags as were counted */
static int bar(uint32_t farm, uint32_t tags) {
    struct kv_room room = kv_used(farm, directory, sizeof directory, values, sizeof values);
    printf("  used %u of %u bytes, %u tags\n", room.used, farm == HILL ? HILL_SIZE : MEADOW_SIZE, room.keys);
    return room.number == KV_DONE && room.keys == tags;
}

/* The walk: each List begins at the last tag seen, which its page repeats; a page without a new tag is the last. */
static int evening(uint32_t farm, uint32_t other) {
    struct kv_page_key last = {0};
    uint32_t tags = 0, before, none;
    do {
        uint8_t page[PAGE];
        before = tags;
        if (!ask(farm, KV_LIST, last.key, last.len, PAGE, &none)) return 0;
        memcpy(page, data, PAGE); /* the other farm and Retrieve use the same buffer */
        if (!meanwhile(other)) return 0;
        for (uint32_t i = 0, count = 1; i < count; i++) {
            struct kv_page_key tag = kv_read_page(page, PAGE, i);
            if (tag.number != KV_DONE) return 0; /* a page that did not come whole */
            count = tag.count;
            if (count == 0 || (tag.len == last.len && memcmp(tag.key, last.key, tag.len) == 0)) continue;
            if (!print(farm, &tag)) return 0;
            last = tag;
            tags++;
        }
    } while (tags > before);
    return bar(farm, tags);
}

/* whether a farm knows the tag, and how many records were looked at to say so */
static int gate(uint32_t farm, const char *tag) {
    struct kv_look look = kv_known((const uint8_t *)tag, strlen(tag), farm, directory, sizeof directory, values, sizeof values);
    printf("  %s at %s Farm: %s, %u looked at\n", tag, farm == HILL ? "Hill" : "Meadow", look.known ? "known" : "not known", look.looked);
    return look.number == KV_DONE;
}

int main(void) {
    if (kv_format_two(HILL_FORMAT, HILL, HILL_SIZE, MEADOW_FORMAT, MEADOW, MEADOW_SIZE, directory, sizeof directory, values,
                      sizeof values) != KV_DONE)
        return 1;
    if (!click(HILL, "0417", "ewe, left") || !click(HILL, "0420", "ram, right") || !click(HILL, "0388", "ewe, left")) return 1;
    if (!click(MEADOW, "0417", "cow, both ears") || !click(MEADOW, "0502", "cow, right")) return 1;
    printf("Hill Farm\n");
    if (!evening(HILL, MEADOW)) return 1;
    printf("Meadow Farm\n");
    if (!evening(MEADOW, HILL)) return 1;
    printf("Hill Farm, once more\n");
    if (!evening(HILL, MEADOW)) return 1;
    printf("The gate\n");
    return !gate(HILL, "0420") || !gate(MEADOW, "0420") || !gate(MEADOW, "0502");
}
