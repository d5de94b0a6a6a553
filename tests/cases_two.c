/* Two namespaces in one memory: where their bytes lie, the same key in both, ids that none has, the numbers of the formatting in their
 * order, the poll's two, heads that are no image, and both filled to the last slot and byte. */
#include "cases.h"

static int is(const uint8_t *p, const char *want, size_t n) { return memcmp(p, want, n) == 0; }

/* the bytes of one key in each, as the manual draws them */
static void places(void) {
    format_two(13, 0x11, 300, 9, 0x2222, 5);
    nsid = 0x11;
    memcpy(data, "one", 3);
    expect("places: the first", store(0, "A", 1, 3) == 0);
    nsid = 0x2222;
    memcpy(data, "two!", 4);
    expect("places: the second", store(0, "A", 1, 4) == 0);
    expect("places: half 1", is(directory, "\x11\0\0\0\x0d\0\0\0\x2c\1\0\0\1\0\0\0\4\0\0\0\0\0\0\0\0\0\0\0\0\0\0", 32));
    expect("places: half 2", is(directory + 32, "\x22\x22\0\0\x09\0\0\0\5\0\0\0\1\0\0\0\5\0\0\0\0\0\0\0\0\0\0\0\0\0\0", 32));
    expect("places: record 1", is(directory + 64, "A\0\0\0\0\0\0\0\0\0\0\0\0\0\0\0\1\0\0\0\0\0\0\0\3\0\0\0\x11\0\0", 32));
    expect("places: record 2", is(directory + 64 + 32 * 16, "A\0\0\0\0\0\0\0\0\0\0\0\0\0\0\0\1\0\0\0\0\0\0\0\4\0\0\0\x22\x22\0", 32));
    expect("places: values", is(values, "one\0", 4) && is(values + 299, "\0two!\0", 5));
}

/* A command, the bytes that it brings, its status, and the bytes handed over. The first namespace is 1, of format 3, the second 2, of
 * format 12, which allows keys of four bytes. */
static const struct row {
    const char *what;
    uint32_t nsid;
    uint8_t opcode, options;
    const char *key;
    uint32_t amount;
    const char *brings;
    int status;
    const char *hands;
    uint32_t handed;
} rows[] = {
    {"the first's A", 1, KV_STORE, 0, "A", 3, "one", 0x00, "", 0},
    {"is none of the second's", 2, KV_EXIST, 0, "A", 0, "", 0x87, "", 0},
    {"nor may the second replace it", 2, KV_STORE, 1, "A", 0, "", 0x87, "", 0},
    {"the second's A", 2, KV_STORE, 2, "A", 4, "two!", 0x00, "", 0},
    {"the first's value", 1, KV_RETRIEVE, 0, "A", 9, "", 0x00, "one", 3},
    {"the second's value", 2, KV_RETRIEVE, 0, "A", 9, "", 0x00, "two!", 4},
    {"the first's B", 1, KV_STORE, 0, "B", 0, "", 0x00, "", 0},
    {"the second's C", 2, KV_STORE, 0, "C", 0, "", 0x00, "", 0},
    {"the first's page", 1, KV_LIST, 0, "", 16, "", 0x00, "\2\0\0\0\1\0A\0\1\0B\0", 12},
    {"the second's page", 2, KV_LIST, 0, "", 16, "", 0x00, "\2\0\0\0\1\0A\0\1\0C\0", 12},
    {"from B the second has C", 2, KV_LIST, 0, "B", 16, "", 0x00, "\1\0\0\0\1\0C\0", 8},
    {"from C the first has none", 1, KV_LIST, 0, "C", 16, "", 0x00, "\0\0\0\0", 4},
    {"the first's longer key", 1, KV_STORE, 0, "ABCDE", 0, "", 0x00, "", 0},
    {"too long for the second", 2, KV_STORE, 0, "ABCDE", 0, "", 0x86, "", 0},
    {"too long a value for the first", 1, KV_STORE, 0, "D", 65, "", 0x85, "", 0},
    {"but not for the second", 2, KV_STORE, 0, "D", 65, "", 0x00, "", 0},
    {"no room in the second", 2, KV_STORE, 0, "E", 28, "", 0x81, "", 0},
    {"its last byte", 2, KV_STORE, 0, "E", 27, "", 0x00, "", 0},
    {"room in the first", 1, KV_STORE, 0, "E", 28, "", 0x00, "", 0},
    {"the second's A goes", 2, KV_DELETE, 0, "A", 0, "", 0x00, "", 0},
    {"and is gone", 2, KV_RETRIEVE, 0, "A", 9, "", 0x87, "", 0},
    {"the first's A stays", 1, KV_RETRIEVE, 0, "A", 9, "", 0x00, "one", 3},
    {"id 3", 3, KV_EXIST, 0, "A", 0, "", 0x0b, "", 0},
    {"id 0", 0, KV_EXIST, 0, "A", 0, "", 0x0b, "", 0},
    {"id 0, List", 0, KV_LIST, 0, "", 16, "", 0x0b, "", 0},
    {"id FFFFFFFFh", 0xffffffff, KV_STORE, 0, "A", 0, "", 0x0b, "", 0},
    {"id 3 and a key of 17 bytes", 3, KV_EXIST, 0, "0123456789abcdefg", 0, "", 0x0b, "", 0},
    {"id 3 and no such opcode", 3, 0x03, 0, "A", 0, "", 0x01, "", 0},
};

static int length(const char *s) {
    int n = 0;
    while (s[n] != 0) n++;
    return n;
}

static void given(const struct row *r) {
    uint32_t brings = length(r->brings);
    memset(data, 0xff, sizeof data);
    memcpy(data, r->brings, brings);
    nsid = r->nsid;
    int status = command(r->opcode, r->options, r->key, length(r->key), r->amount, r->amount);
    expect(r->what, status == r->status);
    if (r->opcode == KV_STORE) return;
    expect(r->what, is(data, r->hands, r->handed) && data[r->handed] == 0xff);
}

static int room_of(uint32_t id, uint32_t number, uint32_t used, uint32_t keys) {
    nsid = id;
    return room_is(number, used, keys);
}

static void beside_each_other(void) {
    format_two(3, 1, 60, 12, 2, 100);
    for (size_t i = 0; i < sizeof rows / sizeof *rows; i++) given(rows + i);
    expect("used room of each", room_of(1, 0, 4 + 1 + 5 + 29, 4) && room_of(2, 0, 1 + 66 + 28, 3));
    expect("used room of none", room_of(3, KV_NOT_HELD, 0, 0) && room_of(0, KV_NOT_HELD, 0, 0) && room_of(0xffffffff, KV_NOT_HELD, 0, 0));
    directory[20] = 1;
    expect("18 before 23", room_of(1, KV_ILLEGAL, 0, 0) && room_of(3, KV_ILLEGAL, 0, 0) && room_of(0, KV_ILLEGAL, 0, 0));
}

/* with one namespace the second half's id is 0, which names nothing */
static void alone(void) {
    format(3, 60);
    expect("alone", store(0, "A", 1, 3) == 0 && room_of(1, 0, 4, 1));
    nsid = 0;
    expect("alone: id 0", store(0, "B", 1, 0) == 0x0b && list("", 0, 4) == 0x0b && command(KV_DELETE, 0, "A", 1, 0, 0) == 0x0b);
    nsid = 2;
    expect("alone: id 2", store(0, "B", 1, 0) == 0x0b && command(KV_RETRIEVE, 0, "A", 1, 3, 3) == 0x0b);
    expect("alone: polls", room_of(0, KV_NOT_HELD, 0, 0) && room_of(2, KV_NOT_HELD, 0, 0) && room_of(1, 0, 4, 1));
}

/* Formattings with one fault fewer from row to row, each of which decides; then faults alone. Needed are 64 + 32 x 32 bytes of directory
 * and the two sizes. */
static const struct asked {
    uint32_t index1, id1;
    uint64_t size1;
    uint32_t index2, id2;
    uint64_t size2;
    size_t directory, values;
    uint32_t number;
} asks[] = {
    {16, 0, 0, 16, 0, 0, 0, 0, 3},
    {15, 0, 0, 16, 0, 0, 0, 0, 4},
    {15, 7, 0, 16, 0, 0, 0, 0, 5},
    {15, 7, 65536, 16, 0, 0, 0, 0, 3},
    {15, 7, 65536, 15, 0, 0, 0, 0, 4},
    {15, 7, 65536, 15, 7, 0, 0, 0, 5},
    {15, 7, 65536, 15, 7, 1, 0, 0, 19},
    {15, 7, 65536, 15, 8, 1, 0, 0, 5},
    {15, 7, 65535, 15, 8, 1, 0, 0, 6},
    {15, 7, 65535, 15, 8, 1, 64 + 32 * 32 - 1, 65536, 6},
    {15, 7, 65535, 15, 8, 1, 64 + 32 * 32, 65535, 6},
    {15, 7, 65535, 15, 8, 1, 64 + 32 * 32, 65536, 0},
    {15, 7, 1, 15, 8, 65535, 64 + 32 * 32, 65536, 0},
    {15, 0xffffffff, 1, 15, 8, 1, 64 + 32 * 32, 65536, 4},
    {15, 7, 1, 15, 0xffffffff, 1, 64 + 32 * 32, 65536, 4},
    {15, 7, 0xffffffffffffffff, 15, 8, 2, 64 + 32 * 32, 65536, 5},
    {15, 7, 2, 15, 8, 0xffffffffffffffff, 64 + 32 * 32, 65536, 5},
    {15, 7, 0x100000001, 15, 8, 1, 64 + 32 * 32, 65536, 5},
    {15, 7, 1, 15, 8, 0x100000001, 64 + 32 * 32, 65536, 5},
    {0, 7, 1, 15, 8, 1, 64 + 32 * 1040 - 1, 2, 6},
    {0, 7, 1, 15, 8, 1, 64 + 32 * 1040, 2, 0},
    {0, 7, 32768, 3, 8, 32768, 64 + 32 * 2048, 65536, 0},
};

static void numbers(void) {
    for (size_t i = 0; i < sizeof asks / sizeof *asks; i++) {
        const struct asked *a = asks + i;
        int left = 1;
        memset(directory, 0x5a, sizeof directory);
        memset(values, 0x5a, sizeof values);
        uint32_t number = kv_format_two(a->index1, a->id1, a->size1, a->index2, a->id2, a->size2, directory, a->directory, values, a->values);
        for (size_t j = 0; j < sizeof directory; j++) left &= directory[j] == 0x5a;
        for (size_t j = 0; j < sizeof values; j++) left &= values[j] == 0x5a;
        if (number != a->number || left != (number != 0)) printf("row %d: number %u\n", (int)i, number);
        expect("numbers: in their order, and a refusal writes nothing", number == a->number && left == (number != 0));
    }
}

static void no_image(const char *what) {
    static uint8_t before[DIRECTORY];
    memcpy(before, directory, sizeof before);
    expect(what, room_of(1, KV_ILLEGAL, 0, 0) && room_of(2, KV_ILLEGAL, 0, 0) && command(KV_EXIST, 0, "A", 1, 0, 0) == KV_INTERNAL);
    expect("heads: damaged and left", memcmp(before, directory, sizeof before) == 0);
}

/* Each bit of both halves turned, alone, but for the two of a format index that choose the longest key. The second namespace is full, in a
 * format of the fewest keys, so that no other size or number of keys serves it. Then heads that are wrong only by what the halves have
 * beside each other. */
static void heads(void) {
    uint8_t half[32];
    format_two(9, 1, 9, 13, 2, 5);
    memset(data, 7, 4);
    nsid = 1;
    expect("heads: the first's A", store(0, "A", 1, 4) == 0);
    nsid = 2;
    expect("heads: the second's A", store(0, "A", 1, 4) == 0);
    for (int bit = 0; bit < 512; bit++) {
        if (bit % 256 == 32 || bit % 256 == 33) continue;
        directory[bit / 8] ^= 1 << bit % 8;
        no_image("heads: a bit");
        directory[bit / 8] ^= 1 << bit % 8;
    }
    expect("heads: whole again", room_of(1, 0, 5, 1) && room_of(2, 0, 5, 1));
    format_two(13, 1, 9, 13, 2, 9);
    memcpy(half, directory, 32);
    memcpy(directory, directory + 32, 32);
    memcpy(directory + 32, half, 32);
    expect("heads: two that hold nothing, turned", room_of(1, 0, 0, 0) && room_of(2, 0, 0, 0));
    directory[32] = 2;
    no_image("heads: equal ids");
    memset(directory + 32, 0, 4);
    no_image("heads: a second half without an id");
    memcpy(directory + 32, half, 32);
    memset(directory, 0, 32);
    no_image("heads: a second half alone");
    format_two(13, 1, 65535, 13, 2, 1);
    directory[40] = 2;
    values[65536] = 0;
    needed_values = 65537;
    no_image("heads: sizes of 65,537 together, and all else as they need it");
    format_two(13, 1, 9, 13, 2, 9);
    memset(directory + 32, 0, 32);
    needed_directory = 64 + 32 * 16, needed_values = 9;
    memset(directory + needed_directory, 0x5a, sizeof directory - needed_directory);
    memset(values + needed_values, 0x5a, sizeof values - needed_values);
    expect("heads: no second half, one namespace", room_of(1, 0, 0, 0) && room_of(2, KV_NOT_HELD, 0, 0));
}

/* key i, of four bytes, with 28 bytes of value: 1024 of them are 32,768 bytes */
static int put(int opcode, uint32_t i) {
    uint32_t key = i * 2654435761u;
    memset(data, i + nsid, 28);
    return command(opcode, 0, &key, 4, 28, 28);
}

static void filled(void) {
    static uint8_t records[32 * 1024], room[32768];
    format_two(0, 1, 32768, 0, 2, 32768);
    for (uint32_t i = 0; i <= 2 * 1024 + 1; i++) {
        nsid = 1 + i % 2;
        expect("filled", put(KV_STORE, i / 2) == (i / 2 < 1024 ? 0x00 : KV_CAPACITY));
    }
    expect("filled: used room", room_of(1, 0, 32768, 1024) && room_of(2, 0, 32768, 1024));
    for (uint32_t id = 1; id <= 2; id++) { /* the first goes while the second is full, then the second while the first is empty */
        memcpy(records, directory + 64 + 32 * 1024, sizeof records);
        memcpy(room, values + 32768, sizeof room);
        nsid = id;
        for (uint32_t i = 0; i < 1024; i++) expect("filled: taken out", put(KV_DELETE, i) == 0);
        expect("filled: empty", room_of(id, 0, 0, 0) && room_of(3 - id, 0, id == 1 ? 32768 : 0, id == 1 ? 1024 : 0));
        int same = memcmp(records, directory + 64 + 32 * 1024, sizeof records) == 0 && memcmp(room, values + 32768, sizeof room) == 0;
        expect("filled: the second's bytes", same == (id == 1));
    }
}

void two_farms(void) {
    places();
    beside_each_other();
    alone();
    numbers();
    heads();
    filled();
}
