/* The rows of the memory calls: ranges of every size in the largest memory, and each refusal. */
#ifndef STACK_MEMORY_H
#define STACK_MEMORY_H

#include "stack_rows.h"

static uint8_t memory[SIZE], moved[SIZE];

static void memory_read(void) {
    number = kv_memory_read(entry, lent.entry, completion, lent.completion, moved, lent.moved, memory, lent.memory, 1, 1, 1, 1);
}
static void memory_write(void) {
    number = kv_memory_write(entry, lent.entry, completion, lent.completion, moved, lent.moved, memory, lent.memory, 1, 1, 1, 1);
}
static void memory_fill(void) {
    number = kv_memory_fill(entry, lent.entry, completion, lent.completion, 0x11223344, memory, lent.memory, 1, 1, 1, 1);
}

/* a range under an id, in slices of these lengths, and what the call is to answer, so that no row stands for refusals alone */
static const struct ranged {
    uint64_t start;
    uint32_t length, id;
    size_t entry, completion, moved, memory;
    uint32_t number, status;
} ranges[] = {
    {0, SIZE, 1, 64, 16, SIZE, SIZE, 0, KV_SUCCESS},
    {0, 4, 1, 64, 16, SIZE, SIZE, 0, KV_SUCCESS},
    {4, SIZE - 4, 1, 64, 16, SIZE, SIZE, 0, KV_SUCCESS},
    {SIZE, 0, 1, 64, 16, 0, SIZE, 0, KV_SUCCESS},
    {0, 0, 1, 64, 16, 0, 0, 0, KV_SUCCESS},
    {0, SIZE, 1, 63, 16, SIZE, SIZE, KV_ENTRY_LENGTH, 0},
    {0, SIZE, 1, 64, 15, SIZE, SIZE, KV_COMPLETION_LENGTH, 0},
    {0, SIZE, 1, 64, 16, SIZE, SIZE - 1, KV_MEMORY_LENGTH, 0},
    {0, SIZE, 1, 64, 16, SIZE, SIZE + 4, KV_MEMORY_LENGTH, 0},
    {0, SIZE, 2, 64, 16, SIZE, SIZE, 0, KV_INVALID_NAMESPACE},
    {2, SIZE, 1, 64, 16, SIZE, SIZE, 0, KV_INVALID_FIELD},
    {0, SIZE - 2, 1, 64, 16, SIZE, SIZE, 0, KV_INVALID_FIELD},
    {SIZE + 4, 0, 1, 64, 16, SIZE, SIZE, 0, KV_OUT_OF_RANGE},
    {0xfffffffffffffffc, 8, 1, 64, 16, SIZE, SIZE, 0, KV_OUT_OF_RANGE},
    {0, SIZE, 1, 64, 16, SIZE - 1, SIZE, 0, KV_DATA_TRANSFER},
};

static void memory_row(const char *name, void (*call)(void)) {
    for (size_t i = 0; i < sizeof ranges / sizeof *ranges; i++) {
        const struct ranged *r = ranges + i;
        uint32_t status = call == memory_fill && r->status == KV_DATA_TRANSFER ? KV_SUCCESS : r->status; /* it has no data buffer */
        memset(entry, 0xff, sizeof entry);
        memcpy(entry + 4, &r->id, 4);
        memcpy(entry + 40, &r->start, 8);
        memcpy(entry + 48, &r->length, 4);
        lent.entry = r->entry, lent.completion = r->completion, lent.moved = r->moved, lent.memory = r->memory;
        measure(call);
        if (number != r->number || (number == 0 && (completion[14] | completion[15] << 8) != 2 * (int)status + 1))
            failed = printf("FAILED: %s answers range %zu with number %u, word %02x%02x\n", name, i, number, completion[15], completion[14]);
    }
    row_within(name, "", HALF);
}

static void memories(void) {
    memory_row("kv_memory_read", memory_read);
    memory_row("kv_memory_write", memory_write);
    memory_row("kv_memory_fill", memory_fill);
}

#endif
