/* The calls that the cases make. */
#include "cases.h"

uint8_t directory[DIRECTORY], values[VALUES], data[4096], completion[16], entry[64];
size_t needed_directory, needed_values;
uint32_t nsid = 1;
int failed, passed;
static uint8_t past[DIRECTORY]; /* what stands past the needed parts */

void expect(const char *what, int ok) {
    passed += ok;
    failed += !ok;
    if (!ok) printf("FAILED: %s\n", what);
}

void untouched(void) {
    size_t d = needed_directory, v = needed_values;
    expect("past the directory's needed part", memcmp(directory + d, past, sizeof directory - d) == 0);
    expect("past the values' needed part", memcmp(values + v, past, sizeof values - v) == 0);
}

static uint32_t keys(uint32_t index) { return 1024u >> index / 4 * 2; }

static void soil(size_t d, size_t v) {
    memset(directory, 0x5a, sizeof directory);
    memset(values, 0x5a, sizeof values);
    memset(past, 0x5a, sizeof past);
    needed_directory = d;
    needed_values = v;
}

void format(uint32_t index, uint32_t size) {
    soil(64 + 32 * keys(index), size);
    nsid = 1;
    expect("format", kv_format(index, 1, size, directory, sizeof directory, values, sizeof values) == 0);
    untouched();
}

void format_two(uint32_t index1, uint32_t id1, uint32_t size1, uint32_t index2, uint32_t id2, uint32_t size2) {
    soil(64 + 32 * (keys(index1) + keys(index2)), size1 + size2);
    uint32_t number = kv_format_two(index1, id1, size1, index2, id2, size2, directory, sizeof directory, values, sizeof values);
    expect("format two", number == 0);
    untouched();
}

void prepare(int opcode, int options, const void *key, int len, uint32_t amount) {
    uint8_t k[16] = {0};
    memcpy(k, key, len < 16 ? len : 16);
    memset(entry, 0xee, sizeof entry);
    entry[0] = opcode;
    entry[1] = 0xfc;
    entry[2] = 0x34;
    entry[3] = 0x12;
    memcpy(entry + 4, &nsid, 4);
    memcpy(entry + 8, k, 8);
    memcpy(entry + 40, &amount, 4);
    entry[44] = len;
    entry[45] = options;
    memcpy(entry + 56, k + 8, 8);
}

int give(uint8_t *buffer, size_t room) {
    uint32_t number = kv_command(entry, 64, completion, 16, buffer, room, directory, sizeof directory, values, sizeof values, 7, 1,
                                 1);
    expect("number", number == 0);
    untouched();
    int word = completion[14] | completion[15] << 8;
    expect("phase and type", (word & 1) == 1 && word >> 9 == 0);
    expect("fields", memcmp(completion + 4, "\0\0\0\0\7\0\1\0\x34\x12", 10) == 0);
    return word >> 1 & 255;
}

int command_on(uint8_t *buffer, int opcode, int options, const void *key, int len, uint32_t amount, size_t room) {
    prepare(opcode, options, key, len, amount);
    return give(buffer, room);
}

int command(int opcode, int options, const void *key, int len, uint32_t amount, size_t room) {
    return command_on(data, opcode, options, key, len, amount, room);
}

uint32_t dword0(void) {
    uint32_t n;
    memcpy(&n, completion, 4);
    return n;
}

int store(int options, const char *key, int len, uint32_t amount) { return command(KV_STORE, options, key, len, amount, amount); }

int list(const char *key, int len, uint32_t size) {
    memset(data, 0xff, sizeof data);
    return command(KV_LIST, 0, key, len, size, size);
}

int room_is(uint32_t number, uint32_t used, uint32_t keys) {
    struct kv_room r = kv_used(nsid, directory, sizeof directory, values, sizeof values);
    untouched();
    return r.number == number && r.used == used && r.keys == keys;
}
