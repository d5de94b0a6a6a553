/* The Identify page and the fields: a page byte by byte, the pages of two namespaces and of a full one, the refusals in their
 * order; and a formatting by fields, with rubbish in all that is not read. */
#include "cases.h"

enum { PAGE = 4096, FIELDS = 512 };

static uint8_t page[PAGE + SPARE], fields[FIELDS + SPARE];

/* format 3 of 4,096 bytes, nothing held; what stands behind the sixteenth descriptor is zero */
static const char empty_page[PAGE] = "\0\x10\0\0\0\0\0\0" "\0\0\0\0\0\0\0\0" /* size */
                                     "\0\0\0\0\0\0\0\0" "\0\x0f\0\0\0\3\0\0" /* used room, the last format, this one's */
                                     "\0\0\0\0\0\0\0\0" "\0\0\0\0\0\0\0\0"
                                     "\0\0\0\0\0\0\0\0" "\0\0\0\0\0\0\0\0"
                                     "\0\0\0\0\0\0\0\0"
                                     "\x04\0\0\0\x40\0\0\0\0\4\0\0\0\0\0\0" /* longest key, longest value, most keys */
                                     "\x08\0\0\0\x40\0\0\0\0\4\0\0\0\0\0\0"
                                     "\x0c\0\0\0\x40\0\0\0\0\4\0\0\0\0\0\0"
                                     "\x10\0\0\0\x40\0\0\0\0\4\0\0\0\0\0\0"
                                     "\x04\0\0\0\0\1\0\0\0\1\0\0\0\0\0\0"
                                     "\x08\0\0\0\0\1\0\0\0\1\0\0\0\0\0\0"
                                     "\x0c\0\0\0\0\1\0\0\0\1\0\0\0\0\0\0"
                                     "\x10\0\0\0\0\1\0\0\0\1\0\0\0\0\0\0"
                                     "\x04\0\0\0\0\4\0\0\x40\0\0\0\0\0\0\0"
                                     "\x08\0\0\0\0\4\0\0\x40\0\0\0\0\0\0\0"
                                     "\x0c\0\0\0\0\4\0\0\x40\0\0\0\0\0\0\0"
                                     "\x10\0\0\0\0\4\0\0\x40\0\0\0\0\0\0\0"
                                     "\x04\0\0\0\0\x10\0\0\x10\0\0\0\0\0\0\0"
                                     "\x08\0\0\0\0\x10\0\0\x10\0\0\0\0\0\0\0"
                                     "\x0c\0\0\0\0\x10\0\0\x10\0\0\0\0\0\0\0"
                                     "\x10\0\0\0\0\x10\0\0\x10\0\0\0\0\0\0\0";

static int all(const uint8_t *p, size_t n, uint8_t b) {
    for (size_t i = 0; i < n; i++)
        if (p[i] != b) return 0;
    return 1;
}

/* a page of bytes 5Ah asked for; both slices are to stay, and what stands behind the page */
static uint32_t ask(size_t page_len, uint32_t id, size_t directory_len, size_t values_len) {
    static uint8_t held[DIRECTORY], room[VALUES];
    memcpy(held, directory, sizeof held);
    memcpy(room, values, sizeof room);
    memset(page, 0x5a, sizeof page);
    uint32_t number = kv_identify(page_len > 0 ? page : 0, page_len, id, directory_len > 0 ? directory : 0, directory_len,
                                  values_len > 0 ? values : 0, values_len);
    expect("page: directory only read", memcmp(held, directory, sizeof held) == 0);
    expect("page: values only read", memcmp(room, values, sizeof room) == 0);
    expect("page: behind it", all(page + PAGE, SPARE, 0x5a));
    return number;
}

/* the first 32 bytes as given; behind them every page is the same */
static int shows(uint32_t id, const char *front) {
    return ask(PAGE, id, sizeof directory, sizeof values) == 0 && memcmp(page, front, 32) == 0
           && memcmp(page + 32, empty_page + 32, PAGE - 32) == 0;
}

static void written(void) {
    format(3, 4096);
    expect("page: empty", ask(PAGE, 1, sizeof directory, sizeof values) == 0 && memcmp(page, empty_page, PAGE) == 0);
    expect("page: in slices as short as may be", ask(PAGE, 1, 64 + 32 * 1024, 4096) == 0 && memcmp(page, empty_page, PAGE) == 0);
    format_two(13, 0x11, 300, 9, 0x2222, 5);
    nsid = 0x11;
    expect("page: the first's A", store(0, "A", 1, 290) == 0);
    nsid = 0x2222;
    expect("page: the second's AB", store(0, "AB", 2, 0) == 0);
    expect("page: the first", shows(0x11, "\x2c\1\0\0\0\0\0\0\0\0\0\0\0\0\0\0\x23\1\0\0\0\0\0\0\0\x0f\0\0\0\x0d\0"));
    expect("page: the second", shows(0x2222, "\5\0\0\0\0\0\0\0\0\0\0\0\0\0\0\0\2\0\0\0\0\0\0\0\0\x0f\0\0\0\x09\0"));
    format(15, 65536);
    for (char i = 0; i < 16; i++) expect("page: filling", store(0, &i, 1, 4095) == 0);
    expect("page: full", shows(1, "\0\0\1\0\0\0\0\0\0\0\0\0\0\0\0\0\0\0\1\0\0\0\0\0\0\x0f\0\0\0\x0f\0"));
    expect("page: one deleted", command(KV_DELETE, 0, "\0", 1, 0, 0) == 0);
    expect("page: not full", shows(1, "\0\0\1\0\0\0\0\0\0\0\0\0\0\0\0\0\0\xf0\0\0\0\0\0\0\0\x0f\0\0\0\x0f\0"));
}

/* with all of it wrong first, then with fewer faults; the memory has ids 1 and 2, both of format 13 and 9 bytes */
static const struct asked {
    size_t page;
    uint32_t id;
    int damaged;
    size_t directory, values;
    uint32_t number;
} asks[] = {
    {0, 3, 1, 0, 0, 14},
    {4095, 3, 1, 1088, 18, 14},
    {4097, 3, 1, 1088, 18, 14},
    {4095, 3, 0, 1088, 18, 14},
    {4097, 1, 0, 1088, 18, 14},
    {4096, 3, 1, 1088, 18, 18},
    {4096, 0, 1, 1088, 18, 18},
    {4096, 1, 1, 1088, 18, 18},
    {4096, 2, 1, 1088, 18, 18},
    {4096, 1, 0, 0, 0, 18},
    {4096, 1, 0, 0, 18, 18},
    {4096, 1, 0, 1088, 0, 18},
    {4096, 1, 0, 1087, 18, 18},
    {4096, 3, 0, 1088, 17, 18},
    {4096, 3, 0, 1088, 18, 23},
    {4096, 0, 0, 1088, 18, 23},
    {4096, 0xffffffff, 0, 1088, 18, 23},
    {4096, 0x101, 0, 1088, 18, 23},
    {4096, 2, 0, 1088, 18, 0},
};

static void page_refused(void) {
    format_two(13, 1, 9, 13, 2, 9);
    for (size_t i = 0; i < sizeof asks / sizeof *asks; i++) {
        const struct asked *a = asks + i;
        directory[20] = a->damaged;
        uint32_t number = ask(a->page, a->id, a->directory, a->values);
        if (number != a->number) printf("row %d: number %u\n", (int)i, number);
        expect("page refused: in their order", number == a->number);
        expect("page refused: nothing written", all(page, PAGE, 0x5a) == (number != 0));
    }
    format(3, 60);
    expect("page refused: alone, id 2 and 0", ask(PAGE, 2, sizeof directory, sizeof values) == KV_NOT_HELD
           && ask(PAGE, 0, sizeof directory, sizeof values) == KV_NOT_HELD && all(page, PAGE, 0x5a));
}

/* our own page as the host has it: ordinal, longest key, longest value, most keys */
static void read_again(void) {
    static const uint32_t limits[][4]
        = {{0, 4, 64, 1024}, {3, 16, 64, 1024}, {4, 4, 256, 256}, {10, 12, 1024, 64}, {15, 16, 4096, 16},
           {16, 0, 0, 0}, {250, 0, 0, 0}, {251, 0, 0, 0}, {0xffffffff, 0, 0, 0}};
    format_two(13, 1, 300, 9, 2, 5);
    nsid = 1;
    expect("read again: A", store(0, "A", 1, 290) == 0 && ask(PAGE, 1, sizeof directory, sizeof values) == 0);
    for (size_t i = 0; i < sizeof limits / sizeof *limits; i++) {
        struct kv_identity r = kv_read_identify(page, PAGE, limits[i][0]);
        expect("read again", r.number == KV_DONE && r.formats == 16 && r.index == 13 && r.size == 300 && r.used == 291);
        expect("read again: limits", r.keymax == limits[i][1] && r.valuemax == limits[i][2] && r.maxkeys == limits[i][3]);
    }
}

/* ---- fields */

static uint32_t by_fields(size_t len, uint32_t id, size_t directory_len, size_t values_len) {
    static uint8_t before[sizeof fields];
    memcpy(before, fields, sizeof fields);
    memset(directory, 0x5a, sizeof directory);
    memset(values, 0x5a, sizeof values);
    uint32_t number = kv_format_fields(len > 0 ? fields : 0, len, id, directory_len > 0 ? directory : 0, directory_len,
                                       values_len > 0 ? values : 0, values_len);
    expect("fields: only read", memcmp(before, fields, sizeof fields) == 0);
    return number;
}

enum { NEEDED = 64 + 32 * 16 };

/* whether format 13 with id 11h and 300 bytes was laid out, and nothing behind it */
static int formatted(void) {
    return memcmp(directory, "\x11\0\0\0\x0d\0\0\0\x2c\1\0\0", 12) == 0 && all(directory + 12, NEEDED - 12, 0)
           && all(directory + NEEDED, sizeof directory - NEEDED, 0x5a) && all(values, 300, 0)
           && all(values + 300, sizeof values - 300, 0x5a);
}

/* what is not read, all of it at once, then each byte alone; and every index beneath bits that are not read */
static void fields_taken(void) {
    memset(fields, 0xa7, sizeof fields);
    memcpy(fields, "\x2c\1\0\0\0\0\0\0", 8);
    fields[31] = 0xad;
    expect("fields: rubbish", by_fields(FIELDS, 0x11, sizeof directory, sizeof values) == 0 && formatted());
    memset(fields, 0, sizeof fields);
    memcpy(fields, "\x2c\1", 2);
    fields[31] = 0x0d;
    expect("fields: zeros", by_fields(FIELDS, 0x11, NEEDED, 300) == 0 && formatted());
    for (size_t i = 8; i < FIELDS; i++) {
        uint8_t unread = i == 31 ? 0xf0 : 0xff;
        fields[i] ^= unread;
        expect("fields: a byte", by_fields(FIELDS, 0x11, NEEDED, 300) == 0 && formatted());
        fields[i] ^= unread;
    }
    for (uint8_t index = 0; index < 16; index++) {
        fields[31] = 0x50 | index;
        expect("fields: an index", by_fields(FIELDS, 1, sizeof directory, sizeof values) == 0 && directory[4] == index);
    }
}

static const struct created {
    size_t fields;
    uint32_t id;
    uint64_t size;
    size_t directory, values;
    uint32_t number;
} creations[] = {
    {0, 0, 0, 0, 0, 14},
    {511, 0, 0, 0, 0, 14},
    {513, 0, 0, 0, 0, 14},
    {511, 7, 65536, 576, 65536, 14},
    {513, 7, 65536, 576, 65536, 14},
    {512, 0, 0, 0, 0, 4},
    {512, 0xffffffff, 0, 0, 0, 4},
    {512, 0xffffffff, 1, 576, 65536, 4},
    {512, 7, 0, 0, 0, 5},
    {512, 7, 65537, 576, 65536, 5},
    {512, 7, 0x100000001, 576, 65536, 5},
    {512, 7, 0x0100000000000001, 576, 65536, 5},
    {512, 7, 0xffffffffffffffff, 576, 65536, 5},
    {512, 7, 1, 0, 0, 6},
    {512, 7, 65536, 575, 65536, 6},
    {512, 7, 65536, 576, 65535, 6},
    {512, 7, 65536, 576, 65536, 0},
    {512, 0xfffffffe, 1, 576, 1, 0},
};

/* of format 15, which needs 576 bytes of directory */
static void fields_refused(void) {
    for (size_t i = 0; i < sizeof creations / sizeof *creations; i++) {
        const struct created *c = creations + i;
        memset(fields, 0xff, sizeof fields);
        memcpy(fields, &c->size, 8);
        uint32_t number = by_fields(c->fields, c->id, c->directory, c->values);
        int left = all(directory, sizeof directory, 0x5a) && all(values, sizeof values, 0x5a);
        if (number != c->number) printf("row %d: number %u\n", (int)i, number);
        expect("fields refused: in their order", number == c->number);
        expect("fields refused: nothing written", left == (number != 0));
    }
}

void identity(void) {
    written();
    page_refused();
    read_again();
    fields_taken();
    fields_refused();
}
