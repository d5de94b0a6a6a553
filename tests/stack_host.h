/* The rows of the host's side: entries built, completions, List pages and Identify pages read. */
#ifndef STACK_HOST_H
#define STACK_HOST_H

#include "stack_rows.h"

static void builds(void) {
    static const uint8_t opcodes[] = {KV_STORE, KV_RETRIEVE, KV_LIST, KV_DELETE, KV_EXIST, 0xff};
    for (size_t i = 0; i < sizeof opcodes; i++) {
        opcode = opcodes[i];
        for (size_t n = 0; n <= KEY + 1; n++) {
            lent.key = n;
            measure(build);
        }
    }
    lent.entry = 63;
    measure(build);
    row("kv_build", "");
}

static void completions(void) {
    measure(read_completion);
    lent.completion = 15;
    measure(read_completion);
    row("kv_read_completion", "");
}

/* a page of 204 keys, as entries of 20 bytes */
static void pages(void) {
    fill(stores, 0);
    prepare(KV_LIST, stores, 0);
    command();
    memcpy(page, data, PAGE);
    for (ordinal = 0; ordinal <= 204; ordinal += 102) measure(read_page);
    for (int cut = 0; cut < 2; cut++) {
        lent.page = cut ? 4083 : 3;
        measure(read_page);
    }
    static const struct { uint16_t at, bit; } wrong[] = {{0, 1}, {22, 1}, {6, 128}}; /* one key more, filling, order */
    for (size_t i = 0; i < sizeof wrong / sizeof *wrong; i++) {
        page[wrong[i].at] ^= wrong[i].bit;
        measure(read_page);
        page[wrong[i].at] ^= wrong[i].bit;
    }
    row("kv_read_page", "");
}

/* pages of sixteen formats and of 256, of which 251 have room */
static void identities_read(void) {
    static const uint32_t ordinals[] = {0, 15, 16, 250, 251, 255, 256, 0xffffffff};
    fill(stores, 0);
    identify();
    for (int foreign = 0; foreign < 2; foreign++) {
        for (size_t i = 0; i < sizeof ordinals / sizeof *ordinals; i++) {
            ordinal = ordinals[i];
            measure(read_identify);
        }
        memset(page, 0xff, PAGE);
    }
    lent.page = PAGE - 1;
    measure(read_identify);
    row_within("kv_read_identify", "", HALF);
}

#endif
