/* The deepest stack of each exported call, arguments and return address with it. Stores full to the last byte, of the most keys and of the
 * longest values, with one namespace and with two: every command on them, carried out and refused by every step, and on damaged memory;
 * and the largest working memory. It fails above what the smallest board has, and where a List from the start leaves a key that it listed on
 * the stack. */
#include "stack_host.h"
#include "stack_memory.h"

static uint32_t lists;        /* whose stack was searched */
static uint8_t statuses[256]; /* those that occurred */

/* what is to be noticed, in a call of its own: a key that goes through as many bytes of stack as the board has */
static void copy_between(void) {
    char between[BOARD];
    memcpy(between, tail, TAIL);
    __asm__ volatile("" : : "r"(between) : "memory"); /* so that the copy is made */
}

static void notice(void) {
    measure(copy_between);
    if (deepest <= BOARD || !on_stack(tail, TAIL)) failed = printf("FAILED: a copy on the stack was not noticed\n");
    deepest = 0;
}

enum { AS_IT_IS, NO_KEY, ABSENT_KEY, IF_PRESENT, IF_ABSENT, SMALL_AMOUNT, NO_AMOUNT, LARGE_AMOUNT, NO_DATA, UNKNOWN_OPCODE, FUSED, OTHER_ID,
       KEY_OF_17, BYTE_BEHIND, SHORT_ENTRY, SHORT_COMPLETION, SHORT_DIRECTORY, SHORT_VALUES, TRIES };

static void vary(int try) {
    switch (try) {
    case NO_KEY: memset(entry + 8, 0, 8), memset(entry + 56, 0, 8), entry[44] = 0; break;
    case ABSENT_KEY: entry[63] = '?'; break;
    case IF_PRESENT: entry[45] = 1; break;
    case IF_ABSENT: entry[45] = 2; break;
    case SMALL_AMOUNT: entry[40] = 4, entry[41] = 0; break;
    case NO_AMOUNT: entry[40] = 0, entry[41] = 0; break;
    case LARGE_AMOUNT: entry[43] = 1; break;
    case NO_DATA: lent.data = 0; break;
    case UNKNOWN_OPCODE: entry[0] = 0xff; break;
    case FUSED: entry[1] = 1; break;
    case OTHER_ID: entry[5] = 1; break;
    case KEY_OF_17: entry[44] = KEY + 1; break;
    case BYTE_BEHIND: entry[44] = KEY - 1; break;
    case SHORT_ENTRY: lent.entry = 63; break;
    case SHORT_COMPLETION: lent.completion = 15; break;
    case SHORT_DIRECTORY: lent.directory = 63; break;
    case SHORT_VALUES: lent.values = SIZE - 1; break;
    }
}

/* one command on memory as it is; after a List without a key of its own no key may stand on the stack */
static void give(int code, const struct store *s, int try) {
    prepare(code, s, s->keys / 2);
    vary(try);
    measure(command);
    int status = (completion[14] | completion[15] << 8) >> 1;
    if (number == 0) statuses[status & 255] = 1;
    if (number != 0 || status != 0 || code != KV_LIST || try != NO_KEY || memcmp(data + 10, tail, TAIL) != 0) return;
    lists++;
    if (on_stack(tail, TAIL)) failed = printf("FAILED: a key that a List copied stands on the stack\n");
}

/* to each namespace of a store, with room for a key and full, and full and damaged */
static void commands_to(const struct store *s, int code, int is_full) {
    for (farm = 1; farm <= s->namespaces; farm++) {
        for (int try = 0; try < TRIES; try++) {
            put_back();
            give(code, s, try);
        }
    }
    farm = 1;
    for (uint32_t i = 0; is_full && damage(s, i); i++) give(code, s, AS_IT_IS);
}

static void commands(void) {
    static const struct { int code; const char *what; } all[5]
        = {{KV_STORE, ", Store"}, {KV_RETRIEVE, ", Retrieve"}, {KV_DELETE, ", Delete"}, {KV_EXIST, ", Exist"}, {KV_LIST, ", List"}};
    size_t deep[5] = {0};
    for (int k = 0; k < 2 * STORES; k++) {
        fill(stores + k / 2, 1 - k % 2);
        for (int i = 0; i < 5; i++) {
            deepest = deep[i];
            commands_to(stores + k / 2, all[i].code, k % 2);
            deep[i] = deepest;
        }
    }
    for (int i = 0; i < 5; i++) {
        deepest = deep[i];
        row("kv_command", all[i].what);
    }
}

static void formats(void) {
    first = (struct asked){0, 1, SIZE};
    for (; first.index <= 16; first.index++) measure(format);
    first.index = 0;
    lent.values = SIZE - 1;
    measure(format);
    first.id = 0;
    measure(format);
    first = (struct asked){0, 1, 0};
    measure(format);
    row("kv_format", "");
}

/* each fault of either namespace alone, then what only both can have: equal ids, sizes that are too large together, too short a slice */
static void formats_two(void) {
    static const struct asked good = {0, 1, SIZE / 2}, other = {3, 2, SIZE / 2}, faults[] = {{16, 1, 1}, {0, 0, 1}, {0, 1, 0}, {3, 2, SIZE}};
    for (uint32_t i = 0; i < 256; i++) {
        first = (struct asked){i / 16, 1, SIZE / 2};
        second = (struct asked){i % 16, 2, SIZE / 2};
        measure(format_two);
    }
    for (size_t i = 0; i < sizeof faults / sizeof *faults; i++) {
        first = faults[i], second = other;
        measure(format_two);
        first = good, second = faults[i];
        measure(format_two);
    }
    lent.values = SIZE - 1;
    first = good, second = other;
    measure(format_two);
    row("kv_format_two", "");
}

/* every format by its fields, then each fault alone, the upper bytes of a size among them */
static void formats_by_fields(void) {
    static const struct asked faults[] = {{0, 0, 1}, {0, 1, 0}, {0, 1, 1ull << 32 | 1}};
    memset(fields, 0xff, FIELDS);
    first = (struct asked){0, 1, SIZE};
    for (; first.index < 16; first.index++) measure(format_fields);
    first.index = 0;
    lent.values = SIZE - 1;
    measure(format_fields);
    lent.fields = FIELDS - 1;
    measure(format_fields);
    for (size_t i = 0; i < sizeof faults / sizeof *faults; i++) {
        first = faults[i];
        measure(format_fields);
    }
    row_within("kv_format_fields", "", HALF);
}

/* a call on the full stores, whole and damaged, of each namespace and of one that there is not */
static void on_full_stores(void (*call)(void)) {
    for (int k = 0; k < STORES; k++) {
        fill(stores + k, 0);
        for (farm = 1; farm <= stores[k].namespaces + 1; farm++) {
            put_back();
            measure(call);
            for (uint32_t i = 0; damage(stores + k, i); i++) measure(call);
        }
    }
    farm = 1;
}

static void identities(void) {
    on_full_stores(identify);
    lent.page = PAGE - 1;
    measure(identify);
    row_within("kv_identify", "", HALF);
}

/* A key below all that are held, which takes the most looks, on the full stores; in two namespaces of the most keys that key, one in the
 * middle and one above all, each of every length; and slices that are too short. */
static void looks(void) {
    on_full_stores(known);
    fill(stores + 2, 0);
    for (uint32_t i = 0; i < 2 * 3 * (KEY + 2); i++) {
        farm = 1 + i % 2;
        lent.key = i / 6;
        if (i / 2 % 3 == 1) memcpy(wanted, directory + 64 + 32 * 512, KEY);
        else memset(wanted, i / 2 % 3 == 0 ? 0 : 0xff, KEY);
        measure(known);
    }
    farm = 1;
    lent.directory = 63;
    measure(known);
    lent.values = SIZE - 1;
    measure(known);
    if (looked != 11) failed = printf("FAILED: of 1024 keys at most %u were looked at\n", looked);
    row_within("kv_known", "", HALF);
}

int main(void) {
    static const uint8_t expected[]
        = {KV_SUCCESS, KV_INVALID_OPCODE, KV_INVALID_FIELD, KV_DATA_TRANSFER, KV_INTERNAL, KV_INVALID_NAMESPACE, KV_CAPACITY, KV_VALUE_SIZE,
           KV_KEY_SIZE, KV_KEY_ABSENT, KV_KEY_EXISTS};
    lent = whole;
    notice();
    printf("| Call | Deepest stack, bytes |\n|---|---|\n");
    formats();
    formats_two();
    formats_by_fields();
    commands();
    on_full_stores(used);
    row("kv_used", "");
    identities();
    looks();
    memories();
    builds();
    completions();
    pages();
    identities_read();
    for (size_t i = 0; i < sizeof expected; i++)
        if (!statuses[expected[i]]) failed = printf("FAILED: status %02x did not occur\n", expected[i]);
    if (numbers != (0xffffu | 1u << KV_ILLEGAL | 1u << KV_EQUAL_IDS | 1u << KV_MEMORY_LENGTH | 1u << KV_NOT_HELD))
        failed = printf("FAILED: of the numbers these occurred: %x\n", numbers);
    if (lists == 0) failed = printf("FAILED: no List had its stack searched\n");
    return failed != 0;
}
