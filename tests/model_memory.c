/* The model of the three calls on working memory. Numbers and statuses are the papers' own, not the names of kv.h, so that a wrong name
 * there is found too. */
#include "model_bytes.h"

/* The start has 64 bits; its two words are kept apart, so that no sum here can wrap. */
struct range {
    uint32_t low, high, length;
};

static struct range range_of(const uint8_t *entry) { return (struct range){get32(entry + 40), get32(entry + 44), get32(entry + 48)}; }

static uint32_t number_of(size_t entry_len, size_t completion_len, size_t memory_len) {
    if (entry_len != 64) return 1;
    if (completion_len != 16) return 2;
    return memory_len > 65536 || memory_len % 4 != 0 ? 20 : 0;
}

/* what is asked of all three; any upper word at all is past the largest memory */
static uint32_t status_of(const uint8_t *entry, uint32_t id, size_t memory_len) {
    struct range r = range_of(entry);
    if (get32(entry + 4) != id) return 0x0b;
    if (r.low % 4 != 0 || r.length % 4 != 0) return 0x02;
    return r.high > 0 || (uint64_t)r.low + r.length > memory_len ? 0x80 : 0x00;
}

/* last, for the two that have a data buffer */
static uint32_t status_with(const uint8_t *entry, uint32_t id, size_t memory_len, size_t data_len) {
    uint32_t status = status_of(entry, id, memory_len);
    return status == 0x00 && data_len < range_of(entry).length ? 0x04 : status;
}

uint32_t model_memory_read(const uint8_t *entry, size_t entry_len, uint8_t *completion, size_t completion_len, uint8_t *data, size_t data_len,
                           const uint8_t *memory, size_t memory_len, uint32_t id, uint16_t head, uint16_t queue, uint16_t phase) {
    uint32_t number = number_of(entry_len, completion_len, memory_len);
    if (number != 0) return number;
    uint32_t status = status_with(entry, id, memory_len, data_len);
    if (status == 0x00) memcpy(data, memory + range_of(entry).low, range_of(entry).length);
    put_completion(completion, entry, 0, status, head, queue, phase);
    return 0;
}

uint32_t model_memory_write(const uint8_t *entry, size_t entry_len, uint8_t *completion, size_t completion_len, const uint8_t *data,
                            size_t data_len, uint8_t *memory, size_t memory_len, uint32_t id, uint16_t head, uint16_t queue, uint16_t phase) {
    uint32_t number = number_of(entry_len, completion_len, memory_len);
    if (number != 0) return number;
    uint32_t status = status_with(entry, id, memory_len, data_len);
    if (status == 0x00) memcpy(memory + range_of(entry).low, data, range_of(entry).length);
    put_completion(completion, entry, 0, status, head, queue, phase);
    return 0;
}

uint32_t model_memory_fill(const uint8_t *entry, size_t entry_len, uint8_t *completion, size_t completion_len, uint32_t fill,
                           uint8_t *memory, size_t memory_len, uint32_t id, uint16_t head, uint16_t queue, uint16_t phase) {
    uint32_t number = number_of(entry_len, completion_len, memory_len);
    if (number != 0) return number;
    uint32_t status = status_of(entry, id, memory_len);
    struct range r = range_of(entry);
    for (uint32_t at = 0; status == 0x00 && at < r.length; at += 4) put32(memory + r.low + at, fill);
    put_completion(completion, entry, 0, status, head, queue, phase);
    return 0;
}
