/* The module from C: the sample of document 01, its cases P1 to P12, bytes behind the key, the used room, two commands in either order, a
 * store filled to its last byte and its last slot, two namespaces, the Identify page, fields, the look for a key, working memory, and
 * slices without a byte. After each call every byte past the needed part of both slices is compared. */
#include "cases.h"

_Static_assert(sizeof(struct kv_room) == 12 && _Alignof(struct kv_room) == 4, "kv_room");
_Static_assert(offsetof(struct kv_room, number) == 0 && offsetof(struct kv_room, used) == 4 && offsetof(struct kv_room, keys) == 8, "kv_room");

static void sample(void) {
    format(3, 4096);
    memset(entry, 0, sizeof entry);
    entry[0] = 0x14, entry[2] = 0x34, entry[3] = 0x12, entry[4] = 0x01, entry[8] = 0x41, entry[44] = 0x01;
    uint32_t number = kv_command(entry, 64, completion, 16, data, 0, directory, sizeof directory, values, sizeof values, 1, 1, 1);
    expect("sample", number == 0 && memcmp(completion, "\0\0\0\0\0\0\0\0\1\0\1\0\x34\x12\x0f\x01", 16) == 0);
    untouched();
}

static void cases(void) {
    format(3, 4096);
    expect("P6", list("", 0, 4) == 0 && memcmp(data, "\0\0\0\0\xff", 5) == 0);
    expect("P7", command(KV_EXIST, 0, "0123456789abcdef", 16, 0, 0) == 0x87 && command(KV_EXIST, 0, "0123456789abcdef", 17, 0, 0) == 0x02);
    expect("stores", store(0, "B", 1, 0) == 0 && store(0, "A", 1, 1) == 0 && store(0, "AB", 2, 0) == 0);
    expect("P1", list("", 0, 16) == 0 && memcmp(data, "\3\0\0\0\1\0A\0\2\0AB\1\0B\0\xff", 17) == 0);
    expect("P2", list("", 0, 15) == 0 && memcmp(data, "\2\0\0\0\1\0A\0\2\0AB\xff\xff\xff\xff", 16) == 0);
    expect("P3", list("", 0, 7) == 0 && memcmp(data, "\0\0\0\0\xff\xff\xff\xff", 8) == 0);
    expect("P4", list("", 0, 3) == 0x02 && memcmp(data, "\xff\xff\xff\xff", 4) == 0);
    expect("P5", list("AA", 2, 16) == 0 && memcmp(data, "\2\0\0\0\2\0AB\1\0B\0\xff\xff\xff\xff\xff", 17) == 0);
    format(0, 4096);
    expect("P8", command(KV_EXIST, 0, "01234", 4, 0, 0) == 0x87 && command(KV_EXIST, 0, "01234", 5, 0, 0) == 0x86);
    format(3, 10);
    expect("P9", store(0, "A", 1, 10) == 0x81 && store(0, "A", 1, 9) == 0);
    expect("P10", store(0, "A", 1, 10) == 0x81 && store(0, "A", 1, 9) == 0 && store(0, "A", 1, 1) == 0 && store(0, "A", 1, 9) == 0);
    format(3, 4096);
    expect("P11", store(3, "A", 1, 0) == 0x87 && store(0, "A", 1, 0) == 0 && store(3, "A", 1, 0) == 0x89);
    memcpy(data, "\1\2\3\4\5", 5);
    expect("store 5", store(0, "A", 1, 5) == 0);
    memset(data, 0xff, sizeof data);
    expect("P12", command(KV_RETRIEVE, 0, "A", 1, 3, 3) == 0 && dword0() == 5 && memcmp(data, "\1\2\3\xff", 4) == 0);
}

/* Two commands in one order and in the other: the same bytes where all four succeed, and another store in each where the later Store has no
 * room. */
static void either_order(void) {
    static uint8_t left[sizeof directory], values_left[sizeof values];
    for (int order = 0; order < 2; order++) {
        format(3, 40);
        expect("orders: A stored", store(0, "A", 1, 30) == 0);
        for (int i = 0; i < 2; i++)
            expect("orders: both succeed", i == order ? store(0, "B", 1, 3) == 0 : command(KV_DELETE, 0, "A", 1, 0, 0) == 0);
        if (order == 0) memcpy(left, directory, sizeof left), memcpy(values_left, values, sizeof values);
    }
    expect("orders: the same bytes", memcmp(left, directory, sizeof left) == 0 && memcmp(values_left, values, sizeof values) == 0);
    format(3, 2);
    expect("orders: A has the room", store(0, "A", 1, 1) == 0 && store(0, "B", 1, 1) == 0x81 && command(KV_EXIST, 0, "A", 1, 0, 0) == 0);
    format(3, 2);
    expect("orders: B has the room", store(0, "B", 1, 1) == 0 && store(0, "A", 1, 1) == 0x81 && command(KV_EXIST, 0, "A", 1, 0, 0) == 0x87);
    expect("orders: room once B is deleted", command(KV_DELETE, 0, "B", 1, 0, 0) == 0 && store(0, "A", 1, 1) == 0);
}

/* Each of the five commands with each byte behind its key other than zero, alone, in a store of the given format that holds "A": 02h,
 * whatever the key length, and the store is as it was. With zeros there it is answered as `want` says. */
static void strict(uint32_t index, const char *key, int len, const int want[5]) {
    static const int opcodes[5] = {KV_STORE, KV_RETRIEVE, KV_LIST, KV_DELETE, KV_EXIST};
    static uint8_t held[sizeof directory];
    for (int i = 0; i < 5; i++) {
        format(index, 4096);
        expect("strict: A stored", store(0, "A", 1, 3) == 0);
        memcpy(held, directory, sizeof held);
        for (int at = len; at < 16; at++) {
            prepare(opcodes[i], 0, key, len, 8);
            entry[at < 8 ? 8 + at : 48 + at] = 0x80;
            expect("strict: a byte behind the key", give(data, 8) == KV_INVALID_FIELD);
        }
        expect("strict: the store as it was", memcmp(held, directory, sizeof held) == 0);
        expect("strict: zeros behind the key", command(opcodes[i], 0, key, len, 8, 8) == want[i]);
    }
}

/* The used room after Stores, Stores in the place of others, Deletes and refusals. Then each bit of the head's number turned, alone: 18
 * from the poll, 06h from a command, and neither writes. */
static void how_full(void) {
    static uint8_t before[sizeof directory];
    format(3, 40);
    expect("room: empty", room_is(0, 0, 0));
    expect("room: a key", store(0, "A", 1, 3) == 0 && room_is(0, 4, 1));
    expect("room: a key without a value", store(0, "AB", 2, 0) == 0 && room_is(0, 6, 2));
    expect("room: longer in its place", store(0, "A", 1, 30) == 0 && room_is(0, 33, 2));
    expect("room: shorter in its place", store(0, "A", 1, 1) == 0 && room_is(0, 4, 2));
    expect("room: a Store refused", store(0, "B", 1, 36) == KV_CAPACITY && room_is(0, 4, 2));
    expect("room: a Delete refused", command(KV_DELETE, 0, "B", 1, 0, 0) == KV_KEY_ABSENT && room_is(0, 4, 2));
    expect("room: to the last byte", store(0, "B", 1, 35) == 0 && room_is(0, 40, 3));
    expect("room: deleted", command(KV_DELETE, 0, "A", 1, 0, 0) == 0 && room_is(0, 38, 2));
    for (int bit = 0; bit < 32; bit++) {
        directory[16 + bit / 8] ^= 1 << bit % 8;
        memcpy(before, directory, sizeof before);
        expect("room: another number", room_is(KV_ILLEGAL, 0, 0) && command(KV_EXIST, 0, "B", 1, 0, 0) == KV_INTERNAL);
        expect("room: damaged and left", memcmp(before, directory, sizeof before) == 0);
        directory[16 + bit / 8] ^= 1 << bit % 8;
    }
    expect("room: whole again", room_is(0, 38, 2) && command(KV_EXIST, 0, "B", 1, 0, 0) == 0);
}

/* keys of four bytes and values of v bytes until the store is full, then all of it taken out again */
static void fill(uint32_t index, uint32_t size, uint32_t v, uint32_t want) {
    format(index, size);
    uint32_t n = 0;
    uint8_t key[4];
    for (;; n++) {
        uint32_t k = n * 2654435761u;
        memcpy(key, &k, 4);
        memset(data, n & 255, v);
        int status = command(KV_STORE, 2, key, 4, v, v);
        if (status != 0) {
            expect("full is 81h", status == 0x81);
            break;
        }
    }
    expect("filled", n == want && room_is(0, n * (4 + v), n));
    for (uint32_t i = 0; i < n; i += n - 1) { /* the first and the last again, and with more than there is room for */
        uint32_t k = i * 2654435761u, left = size - n * (4 + v), most = 64u << index / 4 * 2;
        memcpy(key, &k, 4);
        memset(data, i & 255, sizeof data);
        expect("again", command(KV_STORE, 0, key, 4, v, v) == 0);
        if (v + left < most) expect("again, one more", command(KV_STORE, 0, key, 4, v + left + 1, v + left + 1) == 0x81);
    }
    for (uint32_t i = 0; i < n; i++) {
        uint32_t k = i * 2654435761u;
        memcpy(key, &k, 4);
        memset(data, 0xff, sizeof data);
        expect("held", command(KV_RETRIEVE, 0, key, 4, v, v) == 0 && dword0() == v && (v == 0 || data[v - 1] == (i & 255)));
        expect("deleted", command(KV_DELETE, 0, key, 4, 0, 0) == 0);
    }
    int zero = 1;
    for (uint32_t i = 0; i < size; i++) zero &= values[i] == 0;
    for (uint32_t i = 16; i < needed_directory; i++) zero &= directory[i] == 0;
    expect("empty again", zero && directory[12] == 0 && directory[13] == 0);
}

/* A slice of no bytes may come with a null pointer: each of the five that the device's calls are lent, alone and all at once. */
static void empty(void) {
    uint8_t before[16];
    format(3, 4096);
    expect("no data: Store", store(0, "A", 1, 1) == 0 && command_on(0, KV_STORE, 0, "B", 1, 0, 0) == 0);
    expect("no data: Store of one byte", command_on(0, KV_STORE, 0, "B", 1, 1, 0) == KV_DATA_TRANSFER);
    expect("no data: Retrieve", command_on(0, KV_RETRIEVE, 0, "A", 1, 0, 0) == 0 && dword0() == 1);
    expect("no data: Retrieve of one byte", command_on(0, KV_RETRIEVE, 0, "A", 1, 1, 0) == KV_DATA_TRANSFER);
    expect("no data: List", command_on(0, KV_LIST, 0, "", 0, 4, 0) == KV_DATA_TRANSFER);
    expect("no data: List of no bytes", command_on(0, KV_LIST, 0, "", 0, 0, 0) == KV_INVALID_FIELD);
    expect("no data: Exist", command_on(0, KV_EXIST, 0, "B", 1, 1, 0) == 0);
    expect("no data: Delete", command_on(0, KV_DELETE, 0, "B", 1, 1, 0) == 0);
    memcpy(before, completion, 16);
    expect("no entry", kv_command(0, 0, completion, 16, data, 0, directory, sizeof directory, values, sizeof values, 7, 1, 1) == 1);
    expect("no completion", kv_command(entry, 64, 0, 0, data, 0, directory, sizeof directory, values, sizeof values, 7, 1, 1) == 2);
    expect("nothing at all", kv_command(0, 0, 0, 0, 0, 0, 0, 0, 0, 0, 7, 1, 1) == 1);
    expect("a refusal writes no completion", memcmp(completion, before, 16) == 0);
    expect("no directory", kv_command(entry, 64, completion, 16, 0, 0, 0, 0, values, sizeof values, 7, 1, 1) == 0);
    expect("no directory: status", completion[14] == (KV_INTERNAL << 1 | 1) && completion[15] == 0);
    memset(completion, 0x5a, sizeof completion);
    expect("no values", kv_command(entry, 64, completion, 16, 0, 0, directory, sizeof directory, 0, 0, 7, 1, 1) == 0);
    expect("no values: status", completion[14] == (KV_INTERNAL << 1 | 1) && completion[15] == 0);
    memset(completion, 0x5a, sizeof completion);
    expect("neither", kv_command(entry, 64, completion, 16, 0, 0, 0, 0, 0, 0, 7, 1, 1) == 0);
    expect("neither: status", completion[14] == (KV_INTERNAL << 1 | 1) && completion[15] == 0);
    expect("formatting nothing", kv_format(3, 1, 1, 0, 0, 0, 0) == 6 && kv_format(3, 1, 0, 0, 0, 0, 0) == 5);
    expect("formatting no directory", kv_format(3, 1, 1, 0, 0, values, sizeof values) == 6);
    expect("formatting no values", kv_format(3, 1, 1, directory, sizeof directory, 0, 0) == 6);
    expect("formatting nothing for two", kv_format_two(3, 1, 1, 3, 2, 1, 0, 0, 0, 0) == 6 && kv_format_two(3, 1, 0, 3, 2, 1, 0, 0, 0, 0) == 5);
    expect("polling nothing", kv_used(1, 0, 0, 0, 0).number == KV_ILLEGAL);
    expect("polling no directory", kv_used(1, 0, 0, values, sizeof values).number == KV_ILLEGAL);
    expect("polling no values", kv_used(1, directory, sizeof directory, 0, 0).number == KV_ILLEGAL);
    untouched();
    expect("what was stored is held", command(KV_RETRIEVE, 0, "A", 1, 1, 1) == 0 && dword0() == 1);
}

int main(void) {
    sample();
    cases();
    strict(3, "A", 1, (const int[5]){0x00, 0x00, 0x00, 0x00, 0x00});
    strict(3, "0123456789abcde", 15, (const int[5]){0x00, 0x87, 0x00, 0x87, 0x87});
    strict(3, "", 0, (const int[5]){0x86, 0x86, 0x00, 0x86, 0x86});
    strict(0, "01234", 5, (const int[5]){0x86, 0x86, 0x86, 0x86, 0x86}); /* above the format's key length */
    how_full();
    either_order();
    fill(0, 65536, 60, 1024); /* the last slot and the last byte */
    fill(3, 65536, 0, 1024);  /* the last slot */
    fill(15, 1608, 100, 15);  /* room for a sixteenth key, but not for its value */
    fill(15, 65536, 4092, 16);
    two_farms();
    identity();
    looks();
    memories();
    empty();
    printf("cases from C: %d passed, %d failed\n", passed, failed);
    return failed != 0;
}
