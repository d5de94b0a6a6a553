/* The look for a key: in none, one, two and 1024 keys, with the number of records looked at; keys that differ in their length alone; two
 * namespaces, and halves of a head that no formatting leaves; records out of order; the refusals in their order. Each answer is a literal. */
#include "cases.h"

_Static_assert(sizeof(struct kv_look) == 12 && _Alignof(struct kv_look) == 4, "kv_look");
_Static_assert(offsetof(struct kv_look, number) == 0 && offsetof(struct kv_look, known) == 4 && offsetof(struct kv_look, looked) == 8, "kv_look");

static const uint8_t *const nowhere = (const uint8_t *)64; /* no program has memory there */

static void put32(uint8_t *p, uint32_t n) { memcpy(p, &n, 4); }

/* one call, behind which both slices are as they were; of the value slice no byte may be read, so that it may stand anywhere */
static struct kv_look ask(const void *key, size_t len, uint32_t id, size_t directory_len, const uint8_t *v, size_t values_len) {
    static uint8_t before[DIRECTORY], room[VALUES];
    memcpy(before, directory, sizeof before);
    memcpy(room, values, sizeof room);
    struct kv_look l = kv_known(key, len, id, directory_len > 0 ? directory : 0, directory_len, v, values_len);
    expect("known: directory only read", memcmp(before, directory, sizeof before) == 0);
    expect("known: values only read", memcmp(room, values, sizeof room) == 0);
    return l;
}

static int says(struct kv_look l, uint32_t number, uint32_t known, uint32_t looked) {
    return l.number == number && l.known == known && l.looked == looked;
}

/* in slices as short as may be, then in longer ones */
static int look_is(const char *key, size_t len, uint32_t known, uint32_t looked) {
    return says(ask(key, len, nsid, needed_directory, nowhere, needed_values), 0, known, looked)
           && says(ask(key, len, nsid, sizeof directory, values, sizeof values), 0, known, looked);
}

static void few(void) {
    format(3, 4096);
    expect("known: no key, no look", look_is("A", 1, 0, 0));
    expect("known: one key", store(0, "B", 1, 3) == 0 && look_is("B", 1, 1, 1));
    expect("known: one key, below and above it", look_is("A", 1, 0, 1) && look_is("C", 1, 0, 1));
    expect("known: two keys", store(0, "D", 1, 0) == 0 && look_is("D", 1, 1, 1) && look_is("B", 1, 1, 2));
    expect("known: two keys, others", look_is("A", 1, 0, 2) && look_is("C", 1, 0, 2) && look_is("E", 1, 0, 1));
    expect("known: deleted", command(KV_DELETE, 0, "B", 1, 0, 0) == 0 && look_is("B", 1, 0, 1) && look_is("D", 1, 1, 1));
}

/* key i is 2 i + 1 with the highest byte first, so that 2 i stands right below it */
static struct kv_look number_known(uint32_t n) {
    const uint8_t key[4] = {0, 0, n >> 8, n};
    return kv_known(key, 4, 1, directory, needed_directory, nowhere, needed_values);
}

static void most(void) {
    uint32_t found = 0, absent = 0, looks = 0, absent_looks = 0, longest = 0, elevens = 0;
    format(0, 4096);
    for (uint32_t i = 0; i < 1024; i++) {
        const uint8_t key[4] = {0, 0, (2 * i + 1) >> 8, 2 * i + 1};
        expect("known: storing", command(KV_STORE, 0, key, 4, 0, 0) == 0);
    }
    for (uint32_t n = 0; n <= 2048; n++) {
        struct kv_look l = number_known(n);
        expect("known: of 1024", l.number == 0 && l.known == n % 2);
        found += l.known, absent += !l.known;
        *(l.known ? &looks : &absent_looks) += l.looked;
        if (l.looked > longest) longest = l.looked;
        elevens += l.looked == 11;
    }
    expect("known: each of 1024, and what lies between", found == 1024 && absent == 1025);
    expect("known: at most 11 looks, for the lowest key and on either side of it", longest == 11 && elevens == 3);
    expect("known: looks in all", looks == 9228 && absent_looks == 10252);
    expect("known: the middle one", says(number_known(1025), 0, 1, 1) && says(number_known(1), 0, 1, 11) && says(number_known(0), 0, 0, 11));
    untouched();
}

/* keys whose bytes agree where zeros stand behind them */
static void lengths(void) {
    format(3, 4096);
    expect("lengths: A and a zero", store(0, "A\0", 2, 0) == 0 && look_is("A\0", 2, 1, 1));
    expect("lengths: neither A nor two zeros", look_is("A", 1, 0, 1) && look_is("A\0\0", 3, 0, 1));
    expect("lengths: A too", store(0, "A", 1, 0) == 0 && look_is("A", 1, 1, 2) && look_is("A\0", 2, 1, 1) && look_is("A\0\0", 3, 0, 1));
    expect("lengths: sixteen", store(0, "0123456789abcdef", 16, 0) == 0 && look_is("0123456789abcdef", 16, 1, 2));
    expect("lengths: fifteen, and what stands behind is not the key's", look_is("0123456789abcdef", 15, 0, 2));
    expect("lengths: another sixteenth byte", look_is("0123456789abcdee", 16, 0, 2) && look_is("0123456789abcdeg", 16, 0, 2));
    format(0, 4096);
    expect("lengths: longer than the format's", store(0, "0123", 4, 0) == 0 && look_is("01234", 5, 0, 1) && look_is("0123", 4, 1, 1));
    expect("lengths: Exist says 86h there", command(KV_EXIST, 0, "01234", 5, 0, 0) == KV_KEY_SIZE);
}

/* each in its own run, of which the second begins behind the 64 slots of the first */
static void two(void) {
    format_two(9, 0x11, 300, 13, 0x2222, 50);
    nsid = 0x2222;
    expect("two: of the second none", look_is("A", 1, 0, 0));
    nsid = 0x11;
    expect("two: the first's", store(0, "A", 1, 1) == 0 && store(0, "C", 1, 0) == 0 && store(0, "E", 1, 0) == 0);
    nsid = 0x2222;
    expect("two: the second's", store(0, "B", 1, 1) == 0 && store(0, "C", 1, 0) == 0);
    expect("two: in the second", look_is("C", 1, 1, 1) && look_is("B", 1, 1, 2) && look_is("A", 1, 0, 2) && look_is("E", 1, 0, 1));
    nsid = 0x11;
    expect("two: in the first", look_is("C", 1, 1, 1) && look_is("A", 1, 1, 2) && look_is("B", 1, 0, 2) && look_is("E", 1, 1, 2));
    put32(directory + 32, 0x11);
    expect("two: equal ids, the first counts", look_is("A", 1, 1, 2) && look_is("E", 1, 1, 2) && look_is("B", 1, 0, 2));
    put32(directory, 0xffffffff);
    expect("two: the second by the first's old id", look_is("B", 1, 1, 2) && look_is("E", 1, 0, 1));
    nsid = 0xffffffff;
    expect("two: an id like any other", look_is("E", 1, 1, 2) && look_is("B", 1, 0, 2));
    put32(directory, 0x11), put32(directory + 32, 0xffffffff);
    expect("two: and in the second half", look_is("B", 1, 1, 2) && look_is("E", 1, 0, 1));
    format_two(0, 1, 9, 3, 2, 9);
    expect("two: of the most slots", says(ask("A", 1, 2, 65600, nowhere, 18), 0, 0, 0) && says(ask("A", 1, 2, 65599, nowhere, 18), 6, 0, 0));
}

/* a first half without an id needs nothing, whatever its other numbers are: the second's run begins at once */
static void second_alone(void) {
    format(13, 9);
    expect("second alone: stored", store(0, "B", 1, 1) == 0 && store(0, "D", 1, 0) == 0);
    memcpy(directory + 32, directory, 32);
    memset(directory + 4, 0xff, 28);
    put32(directory, 0);
    expect("second alone: numbers that none has", look_is("D", 1, 1, 1) && look_is("B", 1, 1, 2) && look_is("A", 1, 0, 2));
    memcpy(directory + 4, directory + 36, 28);
    expect("second alone: the same numbers", look_is("D", 1, 1, 1) && look_is("B", 1, 1, 2) && look_is("C", 1, 0, 2));
    expect("second alone: id 0", says(ask("B", 1, 0, needed_directory, nowhere, needed_values), 23, 0, 0));
    put32(directory + 32, 0);
    expect("second alone: no id at all", says(ask("B", 1, 1, 64, 0, 0), 23, 0, 0) && says(ask("B", 1, 0, 64, 0, 0), 23, 0, 0));
}

/* a record that no command would leave there: its bytes, its length, and what is not looked at */
static void put_record(uint32_t i, const char *key, uint32_t n, uint32_t len) {
    uint8_t *r = directory + 64 + 32 * i;
    memset(r, 0, 16);
    memcpy(r, key, n);
    put32(r + 16, len);
    memset(r + 20, 0xa5, 12);
}

static void out_of_order(void) {
    format(13, 9);
    directory[12] = 5;
    memset(directory + 16, 0xff, 16);
    for (uint32_t i = 0; i < 5; i++) put_record(i, &"EDCBA"[i], 1, 1);
    expect("out of order: the middle", look_is("C", 1, 1, 1));
    expect("out of order: there, and not found", look_is("A", 1, 0, 3) && look_is("B", 1, 0, 3) && look_is("D", 1, 0, 2) && look_is("E", 1, 0, 2));
    put_record(4, "E", 1, 1);
    expect("out of order: twice there", look_is("E", 1, 1, 2));
    put_record(2, "E", 1, 1);
    expect("out of order: thrice there", look_is("E", 1, 1, 1) && look_is("D", 1, 1, 2));
    directory[12] = 2;
    expect("out of order: behind the last", look_is("E", 1, 0, 1) && look_is("D", 1, 1, 1));
    directory[12] = 1;
    put_record(0, "A", 1, 0x101);
    expect("odd record: 257 bytes long", look_is("A", 1, 0, 1) && look_is("B", 1, 0, 1));
    put_record(0, "A", 1, 0x10001);
    expect("odd record: 65,537 bytes long", look_is("A", 1, 0, 1));
    directory[12] = 2;
    put_record(0, "A", 1, 2), put_record(1, "A", 1, 0xffffffff);
    expect("odd record: above every length", look_is("A\0", 2, 1, 2) && look_is("A", 1, 0, 2));
    put_record(0, "A", 1, 0x80000001), put_record(1, "A", 1, 3);
    expect("odd record: below it", look_is("A\0\0", 3, 1, 1) && look_is("A\0\0\0", 4, 0, 1) && look_is("A\0", 2, 0, 2));
    put_record(0, "A", 1, 0), put_record(1, "A\0B", 3, 1);
    expect("odd record: a byte behind its key", look_is("A", 1, 0, 2) && look_is("A\0B", 3, 0, 1));
}

/* Two causes at once, of which the earlier in the order decides; then each alone; then none. A place of 0 changes no word of the head. The
 * memory has ids 1 and 2, of formats 13 and 9, with 9 and 7 bytes, and in each "A" alone: needed are 64 + 32 x 80 bytes and 16. */
static const struct asked {
    size_t key;
    uint32_t id;
    uint32_t at, word, at_too, word_too;
    size_t directory, values;
    uint32_t number, known, looked;
} asks[] = {
    {0, 3, 4, 16, 36, 16, 0, 0, 15, 0, 0},
    {17, 3, 4, 16, 36, 16, 63, 0, 15, 0, 0},
    {0, 3, 0, 0, 0, 0, 2624, 16, 15, 0, 0},
    {17, 3, 0, 0, 0, 0, 2624, 16, 15, 0, 0},
    {17, 1, 0, 0, 0, 0, 2624, 16, 15, 0, 0},
    {0x101, 1, 0, 0, 0, 0, 2624, 16, 15, 0, 0},
    {0x100000001, 1, 0, 0, 0, 0, 2624, 16, 15, 0, 0},
    {0x8000000000000001, 1, 0, 0, 0, 0, 2624, 16, 15, 0, 0},
    {0xffffffffffffffff, 1, 0, 0, 0, 0, 2624, 16, 15, 0, 0},
    {1, 3, 0, 0, 0, 0, 0, 0, 6, 0, 0},
    {1, 3, 0, 0, 0, 0, 63, 16, 6, 0, 0},
    {1, 0, 4, 16, 0, 0, 2624, 16, 6, 0, 0},
    {1, 3, 36, 16, 0, 0, 2624, 16, 6, 0, 0},
    {1, 1, 4, 16, 0, 0, 2624, 16, 6, 0, 0},
    {1, 2, 4, 0x8000000d, 0, 0, 2624, 16, 6, 0, 0},
    {1, 1, 36, 16, 0, 0, 2624, 16, 6, 0, 0},
    {1, 1, 36, 0x109, 0, 0, 2624, 16, 6, 0, 0},
    {1, 2, 8, 0, 0, 0, 2624, 16, 6, 0, 0},
    {1, 1, 40, 0, 0, 0, 2624, 16, 6, 0, 0},
    {1, 2, 8, 65537, 0, 0, 2624, 1 << 20, 6, 0, 0},
    {1, 1, 40, 65537, 0, 0, 2624, 1 << 20, 6, 0, 0},
    {1, 1, 8, 0xffffffff, 40, 1, 2624, 1ull << 40, 6, 0, 0},
    {1, 1, 40, 0xffffffff, 0, 0, 2624, 1ull << 40, 6, 0, 0},
    {1, 2, 12, 17, 0, 0, 2624, 16, 6, 0, 0},
    {1, 1, 44, 65, 0, 0, 2624, 16, 6, 0, 0},
    {1, 2, 12, 0x80000001, 0, 0, 2624, 16, 6, 0, 0},
    {1, 1, 44, 0x10001, 0, 0, 2624, 16, 6, 0, 0},
    {1, 1, 0, 0, 0, 0, 2623, 16, 6, 0, 0},
    {1, 2, 0, 0, 0, 0, 64, 16, 6, 0, 0},
    {1, 3, 0, 0, 0, 0, 2624, 15, 6, 0, 0},
    {1, 1, 0, 0, 0, 0, 2624, 9, 6, 0, 0},
    {1, 1, 8, 65536, 40, 65536, 2624, 131071, 6, 0, 0},
    {1, 3, 0, 0, 0, 0, 2624, 16, 23, 0, 0},
    {1, 0, 0, 0, 0, 0, 2624, 16, 23, 0, 0},
    {1, 0x101, 0, 0, 0, 0, 2624, 16, 23, 0, 0},
    {1, 0x10001, 0, 0, 0, 0, 2624, 16, 23, 0, 0},
    {1, 0xffffffff, 0, 0, 0, 0, 2624, 16, 23, 0, 0},
    {1, 0, 32, 0, 0, 0, 2624, 16, 23, 0, 0},
    {1, 2, 32, 0, 0, 0, 576, 9, 23, 0, 0},
    {1, 1, 0, 0, 0, 0, 2624, 16, 0, 1, 1},
    {1, 2, 0, 0, 0, 0, 2624, 16, 0, 1, 1},
    {1, 1, 8, 65536, 40, 65536, 2624, 131072, 0, 1, 1},
    {1, 2, 8, 65536, 40, 65536, 2624, 131072, 0, 1, 1},
    {1, 1, 8, 65536, 40, 65536, 2624, 1ull << 32, 0, 1, 1},
    {1, 1, 32, 0, 36, 16, 576, 9, 0, 1, 1},
    {1, 1, 4, 12, 36, 11, 2624, 16, 0, 1, 1},
    {1, 1, 12, 16, 44, 64, 2624, 16, 0, 1, 5},
    {1, 2, 12, 16, 44, 64, 2624, 16, 0, 1, 7},
};

/* the records behind each "A" are above every key, for the rows that search them too */
static void refused(void) {
    static uint8_t kept[64];
    format_two(13, 1, 9, 9, 2, 7);
    for (nsid = 1; nsid <= 2; nsid++) expect("known refused: A stored", store(0, "A", 1, 0) == 0);
    memset(directory + 64 + 32, 0xff, 32 * 15);
    memset(directory + 64 + 32 * 17, 0xff, 32 * 63);
    memcpy(kept, directory, 64);
    for (size_t i = 0; i < sizeof asks / sizeof *asks; i++) {
        const struct asked *a = asks + i;
        memcpy(directory, kept, 64);
        if (a->at > 0) put32(directory + a->at, a->word);
        if (a->at_too > 0) put32(directory + a->at_too, a->word_too);
        const void *key = a->key == 0 ? 0 : a->key > 16 ? (const void *)nowhere : "A";
        struct kv_look l = ask(key, a->key, a->id, a->directory, a->values > 0 ? nowhere : 0, a->values);
        if (!says(l, a->number, a->known, a->looked)) printf("row %d: number %u, known %u, looked %u\n", (int)i, l.number, l.known, l.looked);
        expect("known refused: in their order", says(l, a->number, a->known, a->looked));
    }
    expect("known refused: nothing lent", says(kv_known(0, 0, 0, 0, 0, 0, 0), 15, 0, 0) && says(kv_known(kept, 1, 1, 0, 0, 0, 0), 6, 0, 0));
}

void looks(void) {
    few();
    most();
    lengths();
    two();
    second_alone();
    out_of_order();
    refused();
}
