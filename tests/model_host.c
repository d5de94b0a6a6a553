/* The model of the host's side. Numbers are the papers' own, not the names of kv.h, so that a wrong name there is found too. */
#include "model_bytes.h"

uint32_t model_build(uint8_t *entry, size_t entry_len, uint8_t opcode, uint16_t cid, uint32_t nsid, const uint8_t *key,
                     size_t key_len, uint32_t dword10, uint8_t options) {
    if (entry_len != 64) return 1;
    if (key_len > 16) return 12;
    if (!one_of_five(opcode)) return 13;
    memset(entry, 0, 64);
    entry[0] = opcode;
    put16(entry + 2, cid);
    put32(entry + 4, nsid);
    for (size_t i = 0; i < key_len; i++) entry[i < 8 ? 8 + i : 48 + i] = key[i];
    if (opcode != DELETE && opcode != EXIST) put32(entry + 40, dword10);
    entry[44] = key_len;
    if (opcode == STORE) entry[45] = options;
    return 0;
}

struct kv_completion model_read_completion(const uint8_t *completion, size_t completion_len) {
    struct kv_completion c;
    memset(&c, 0, sizeof c);
    c.number = 2;
    if (completion_len != 16) return c;
    uint32_t word = get16(completion + 14);
    c.number = 0;
    c.dword0 = get32(completion);
    c.head = get16(completion + 8);
    c.queue = get16(completion + 10);
    c.cid = get16(completion + 12);
    c.phase = word % 2;
    c.status = word / 2 % 256;
    c.type = word / 512 % 8;
    return c;
}

/* What is wrong with the page: of the faults the one that stands first, and within an entry in the order of the tests here. */
static uint32_t page_number(const uint8_t *page, size_t page_len, uint32_t ordinal, struct kv_page_key *found) {
    if (page_len < 4) return 7;
    const uint8_t *before = page;
    uint32_t before_len = 0; /* the empty key is below every other, so the first entry needs no case of its own */
    size_t at = 4;
    found->count = get32(page);
    for (uint32_t i = 0; i < found->count; i++) {
        if (page_len - at < 2) return 8;
        uint32_t len = get16(page + at);
        if (len == 0 || len > 16) return 9;
        if (page_len - at < entry_len_of(len)) return 8;
        const uint8_t *key = page + at + 2;
        if (!zeros(key + len, entry_len_of(len) - 2 - len)) return 10;
        if (!below(before, before_len, key, len)) return 11;
        if (i == ordinal) {
            found->len = len;
            memcpy(found->key, key, len);
        }
        before = key;
        before_len = len;
        at += entry_len_of(len);
    }
    return 0;
}

struct kv_page_key model_read_page(const uint8_t *page, size_t page_len, uint32_t ordinal) {
    struct kv_page_key found;
    memset(&found, 0, sizeof found);
    uint32_t number = page_number(page, page_len, ordinal, &found);
    if (number != 0) memset(&found, 0, sizeof found);
    found.number = number;
    return found;
}
