/* The host's side from C: the entry of each opcode, a completion, List pages, Identify pages, every number that refuses, slices
 * without a byte, and where the fields of the three structs lie. */
#include "kv.h"

#define AT(type, field, at) _Static_assert(offsetof(struct type, field) == (at), #type "." #field)

_Static_assert(sizeof(struct kv_completion) == 20 && _Alignof(struct kv_completion) == 4, "kv_completion");
AT(kv_completion, number, 0);
AT(kv_completion, dword0, 4);
AT(kv_completion, head, 8);
AT(kv_completion, queue, 10);
AT(kv_completion, cid, 12);
AT(kv_completion, phase, 14);
AT(kv_completion, status, 15);
AT(kv_completion, type, 16);
_Static_assert(sizeof(struct kv_page_key) == 28 && _Alignof(struct kv_page_key) == 4, "kv_page_key");
AT(kv_page_key, number, 0);
AT(kv_page_key, count, 4);
AT(kv_page_key, len, 8);
AT(kv_page_key, key, 12);
_Static_assert(sizeof(struct kv_identity) == 40 && _Alignof(struct kv_identity) == 8, "kv_identity");
AT(kv_identity, number, 0);
AT(kv_identity, formats, 4);
AT(kv_identity, index, 8);
AT(kv_identity, keymax, 12);
AT(kv_identity, valuemax, 16);
AT(kv_identity, maxkeys, 20);
AT(kv_identity, size, 24);
AT(kv_identity, used, 32);

int printf(const char *, ...);
void *memcpy(void *, const void *, size_t);
void *memset(void *, int, size_t);
int memcmp(const void *, const void *, size_t);

static uint8_t entry[64];
static int failed, passed;

static void expect(const char *what, int ok) {
    passed += ok;
    failed += !ok;
    if (!ok) printf("FAILED: %s\n", what);
}

static int all(const uint8_t *s, size_t n, uint8_t b) {
    for (size_t i = 0; i < n; i++)
        if (s[i] != b) return 0;
    return 1;
}

static uint32_t build(size_t room, int opcode, const char *key, size_t len) {
    memset(entry, 0x5a, sizeof entry);
    return kv_build(entry, room, opcode, 0x1234, 0xa1b2c3d4, (const uint8_t *)key, len, 0x01020304, 0xff);
}

/* the entry of a three-byte key and of a sixteen-byte key; bytes 40 to 43 and byte 45 as expected, all else the same for all five */
static void built(const char *what, int opcode, const char *dword10, int options) {
    uint8_t front[8] = {opcode, 0, 0x34, 0x12, 0xd4, 0xc3, 0xb2, 0xa1};
    expect(what, build(64, opcode, "A\0B", 3) == KV_DONE);
    expect(what, memcmp(entry, front, 8) == 0 && memcmp(entry + 8, "A\0B\0\0\0\0\0", 8) == 0 && all(entry + 16, 24, 0));
    expect(what, memcmp(entry + 40, dword10, 4) == 0 && entry[44] == 3 && entry[45] == options && all(entry + 46, 18, 0));
    expect(what, build(64, opcode, "0123456789abcdef", 16) == KV_DONE && entry[44] == 16);
    expect(what, memcmp(entry + 8, "01234567", 8) == 0 && all(entry + 46, 10, 0) && memcmp(entry + 56, "89abcdef", 8) == 0);
}

static void refused(const char *what, uint32_t want, uint32_t number) { expect(what, number == want && all(entry, 64, 0x5a)); }

static void builder(void) {
    built("Store", KV_STORE, "\4\3\2\1", 0xff);
    built("Retrieve", KV_RETRIEVE, "\4\3\2\1", 0);
    built("List", KV_LIST, "\4\3\2\1", 0);
    built("Delete", KV_DELETE, "\0\0\0\0", 0);
    built("Exist", KV_EXIST, "\0\0\0\0", 0);
    expect("empty key", build(64, KV_LIST, "", 0) == KV_DONE && entry[44] == 0 && all(entry + 8, 32, 0) && all(entry + 46, 18, 0));
    refused("entry of 63 bytes, and all else wrong", KV_ENTRY_LENGTH, build(63, 0x03, "0123456789abcdefg", 17));
    refused("key of 17 bytes, and no such opcode", KV_BUILD_KEY, build(64, 0x03, "0123456789abcdefg", 17));
    refused("no such opcode", KV_BUILD_OPCODE, build(64, 0x03, "A", 1));
    refused("opcode 0", KV_BUILD_OPCODE, build(64, 0x00, "A", 1));
}

static void completions(void) {
    /* status 87h, type 5, phase 1, and the highest four bits set, which are no field */
    const uint8_t c[17] = "\4\3\2\1\xee\xee\xee\xee\x11\x22\x33\x44\x34\x12\x0f\xfb";
    struct kv_completion r = kv_read_completion(c, 16);
    expect("completion", r.number == KV_DONE && r.dword0 == 0x01020304 && r.head == 0x2211 && r.queue == 0x4433 && r.cid == 0x1234);
    expect("completion's word", r.phase == 1 && r.status == KV_KEY_ABSENT && r.type == 5);
    for (size_t n = 15; n <= 17; n += 2) {
        r = kv_read_completion(c, n);
        expect("not 16 bytes", r.number == KV_COMPLETION_LENGTH && r.dword0 == 0 && r.head == 0 && r.queue == 0 && r.cid == 0);
        expect("not 16 bytes: the word", r.phase == 0 && r.status == 0 && r.type == 0);
    }
}

static void key(const char *what, const char *page, size_t n, uint32_t ordinal, uint32_t count, const char *want, uint32_t len) {
    struct kv_page_key r = kv_read_page((const uint8_t *)page, n, ordinal);
    expect(what, r.number == KV_DONE && r.count == count && r.len == len && memcmp(r.key, want, len) == 0 && all(r.key + len, 16 - len, 0));
}

/* ordinal 0 stands before whatever is wrong, and is not given either */
static void bad(const char *what, const char *page, size_t n, uint32_t want) {
    struct kv_page_key r = kv_read_page((const uint8_t *)page, n, 0);
    expect(what, r.number == want && r.count == 0 && r.len == 0 && all(r.key, 16, 0));
}

static void pages(void) {
    const char *p1 = "\3\0\0\0\1\0A\0\2\0AB\1\0B\0\xff\xff"; /* P1's page, and two bytes after it */
    key("ordinal 0", p1, 16, 0, 3, "A", 1);
    key("ordinal 1", p1, 16, 1, 3, "AB", 2);
    key("ordinal 2", p1, 18, 2, 3, "B", 1);
    key("ordinal 3", p1, 16, 3, 3, "", 0);
    key("ordinal FFFFFFFFh", p1, 18, 0xffffffff, 3, "", 0);
    key("empty page", "\0\0\0\0", 4, 0, 0, "", 0);
    key("A and A with a zero byte", "\2\0\0\0\1\0A\0\2\0A\0", 12, 1, 2, "A\0", 2);
    key("sixteen bytes", "\1\0\0\0\x10\0" "0123456789abcdef\0\0", 24, 0, 1, "0123456789abcdef", 16);
    bad("three bytes", "\0\0\0", 3, KV_PAGE_LENGTH);
    bad("no bytes", "", 0, KV_PAGE_LENGTH);
    bad("cut in a length", p1, 13, KV_PAGE_ENTRY);
    bad("cut in a key", p1, 14, KV_PAGE_ENTRY);
    bad("cut in the padding", p1, 15, KV_PAGE_ENTRY);
    bad("count above the entries", "\xff\xff\xff\xff\1\0A\0", 8, KV_PAGE_ENTRY);
    bad("length 0", "\2\0\0\0\1\0A\0\0\0", 10, KV_PAGE_KEY_LENGTH);
    bad("length 17, and cut", "\2\0\0\0\1\0A\0\x11\0", 10, KV_PAGE_KEY_LENGTH);
    bad("length 256 + 1", "\2\0\0\0\1\0A\0\1\1B\0", 12, KV_PAGE_KEY_LENGTH);
    bad("padding, and not above", "\2\0\0\0\1\0A\0\1\0A\1", 12, KV_PAGE_PADDING);
    bad("the same key again", "\2\0\0\0\1\0A\0\1\0A\0", 12, KV_PAGE_ORDER);
    bad("a lower key", "\2\0\0\0\2\0AB\1\0A\0", 12, KV_PAGE_ORDER);
}

static uint8_t identity[4097];

/* what the page has for its namespace, whatever the ordinal, then the limits of that ordinal */
static void limits(const char *what, uint32_t ordinal, uint32_t formats, uint32_t keymax, uint32_t valuemax, uint32_t maxkeys) {
    struct kv_identity r = kv_read_identify(identity, 4096, ordinal);
    expect(what, r.number == KV_DONE && r.formats == formats && r.index == 5);
    expect(what, r.size == 0x0807060504030201 && r.used == 0x1817161514131211);
    expect(what, r.keymax == keymax && r.valuemax == valuemax && r.maxkeys == maxkeys);
}

static void no_identity(const char *what, const uint8_t *page, size_t n) {
    struct kv_identity r = kv_read_identify(page, n, 0);
    expect(what, r.number == KV_BYTES_LENGTH && r.formats == 0 && r.index == 0 && r.size == 0 && r.used == 0);
    expect(what, r.keymax == 0 && r.valuemax == 0 && r.maxkeys == 0);
}

/* another device's: 256 formats, of which 251 have room, something other than zero in all that is not read; then fewer formats */
static void identities(void) {
    memset(identity, 0xee, sizeof identity);
    memcpy(identity, "\x01\x02\x03\x04\x05\x06\x07\x08", 8);
    memcpy(identity + 16, "\x11\x12\x13\x14\x15\x16\x17\x18", 8);
    identity[25] = 255;
    identity[29] = 0xe5;
    memcpy(identity + 72, "\x21\x22\xee\xee\x23\x24\x25\x26\x27\x28\x29\x2a", 12);
    memcpy(identity + 4072, "\x31\x32\xee\xee\x33\x34\x35\x36\x37\x38\x39\x3a", 12);
    limits("format 0", 0, 256, 0x2221, 0x26252423, 0x2a292827);
    limits("format 1", 1, 256, 0xeeee, 0xeeeeeeee, 0xeeeeeeee);
    limits("format 250, the last with room", 250, 256, 0x3231, 0x36353433, 0x3a393837);
    limits("format 251, cut by the page's end", 251, 256, 0, 0, 0);
    limits("format 255", 255, 256, 0, 0, 0);
    limits("format 256 of 256", 256, 256, 0, 0, 0);
    limits("format FFFFFFFFh", 0xffffffff, 256, 0, 0, 0);
    limits("format 10000000h, sixteen times which are 0 in 32 bits", 0x10000000, 256, 0, 0, 0);
    identity[25] = 250;
    limits("format 250 of 251", 250, 251, 0x3231, 0x36353433, 0x3a393837);
    identity[25] = 249;
    limits("format 250 of 250", 250, 250, 0, 0, 0);
    identity[25] = 0;
    limits("format 0 of one", 0, 1, 0x2221, 0x26252423, 0x2a292827);
    limits("format 1 of one", 1, 1, 0, 0, 0);
    no_identity("Identify page of 4,095 bytes", identity, 4095);
    no_identity("Identify page of 4,097 bytes", identity, 4097);
    no_identity("Identify page of no bytes", identity, 0);
}

/* a slice of no bytes may come with a null pointer */
static void empty(void) {
    expect("no key", build(64, KV_LIST, 0, 0) == KV_DONE && entry[44] == 0 && all(entry + 8, 32, 0) && all(entry + 46, 18, 0));
    expect("no key: the rest", entry[0] == KV_LIST && entry[2] == 0x34 && memcmp(entry + 40, "\4\3\2\1", 4) == 0);
    memset(entry, 0x5a, sizeof entry);
    refused("no entry", KV_ENTRY_LENGTH, kv_build(0, 0, KV_LIST, 1, 1, (const uint8_t *)"A", 1, 4, 0));
    refused("no entry and no key", KV_ENTRY_LENGTH, kv_build(0, 0, KV_LIST, 1, 1, 0, 0, 4, 0));
    bad("no page", 0, 0, KV_PAGE_LENGTH);
    no_identity("no Identify page", 0, 0);
    struct kv_completion r = kv_read_completion(0, 0);
    expect("no completion", r.number == KV_COMPLETION_LENGTH && r.dword0 == 0 && r.head == 0 && r.queue == 0 && r.cid == 0);
    expect("no completion: the word", r.phase == 0 && r.status == 0 && r.type == 0);
}

int main(void) {
    builder();
    completions();
    pages();
    identities();
    empty();
    printf("host from C: %d passed, %d failed\n", passed, failed);
    return failed != 0;
}
