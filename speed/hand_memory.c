/* The yardstick of the calls on working memory: as a careful hand would write them in C, for the same header. It is compiled twice: with plain loops, and
 * with -DMEMCPY, where memcpy moves the bytes. */
#include "hand_words.h"

/* the header says that slices do not overlap, so that the compiler may make the loop wide and test nothing first */
static void copy(uint8_t *restrict to, const uint8_t *restrict from, size_t n) {
#ifdef MEMCPY
    memcpy(to, from, n);
#else
    for (size_t i = 0; i < n; i++) to[i] = from[i];
#endif
}

static void repeat(uint8_t *to, size_t n, uint32_t word) {
    for (size_t i = 0; i < n; i += 4) {
#ifdef MEMCPY
        memcpy(to + i, &word, 4);
#else
        to[i] = word;
        to[i + 1] = word >> 8;
        to[i + 2] = word >> 16;
        to[i + 3] = word >> 24;
#endif
    }
}

static uint32_t refused(size_t entry_len, size_t completion_len, size_t memory_len) {
    return entry_len != 64 ? 1 : completion_len != 16 ? 2 : memory_len > 65536 || memory_len % 4 ? 20 : 0;
}

/* `room` is what the data buffer has; start and length are not added, as 64 bits may not hold their sum */
static uint32_t judged(const uint8_t *entry, uint64_t start, uint64_t len, size_t room, size_t memory_len, uint32_t id) {
    if (load32(entry + 4) != id) return 0x0b;
    if ((start | len) % 4) return 0x02;
    if (len > memory_len || start > memory_len - len) return 0x80;
    return room < len ? 0x04 : 0;
}

static void post(uint8_t *completion, const uint8_t *entry, uint32_t status, uint16_t head, uint16_t queue, uint16_t phase) {
    save32(completion, 0);
    save32(completion + 4, 0);
    save16(completion + 8, head);
    save16(completion + 10, queue);
    save16(completion + 12, load16(entry + 2));
    save16(completion + 14, (phase & 1) | status << 1);
}

uint32_t kv_memory_read(const uint8_t *entry, size_t entry_len, uint8_t *completion, size_t completion_len, uint8_t *data, size_t data_len,
                        const uint8_t *memory, size_t memory_len, uint32_t id, uint16_t head, uint16_t queue, uint16_t phase) {
    uint32_t number = refused(entry_len, completion_len, memory_len);
    if (number) return number;
    uint64_t start = load64(entry + 40), len = load32(entry + 48);
    uint32_t status = judged(entry, start, len, data_len, memory_len, id);
    if (status == 0) copy(data, memory + start, len);
    post(completion, entry, status, head, queue, phase);
    return 0;
}

uint32_t kv_memory_write(const uint8_t *entry, size_t entry_len, uint8_t *completion, size_t completion_len, const uint8_t *data,
                         size_t data_len, uint8_t *memory, size_t memory_len, uint32_t id, uint16_t head, uint16_t queue, uint16_t phase) {
    uint32_t number = refused(entry_len, completion_len, memory_len);
    if (number) return number;
    uint64_t start = load64(entry + 40), len = load32(entry + 48);
    uint32_t status = judged(entry, start, len, data_len, memory_len, id);
    if (status == 0) copy(memory + start, data, len);
    post(completion, entry, status, head, queue, phase);
    return 0;
}

uint32_t kv_memory_fill(const uint8_t *entry, size_t entry_len, uint8_t *completion, size_t completion_len, uint32_t fill, uint8_t *memory,
                        size_t memory_len, uint32_t id, uint16_t head, uint16_t queue, uint16_t phase) {
    uint32_t number = refused(entry_len, completion_len, memory_len);
    if (number) return number;
    uint64_t start = load64(entry + 40), len = load32(entry + 48);
    uint32_t status = judged(entry, start, len, SIZE_MAX, memory_len, id);
    if (status == 0) repeat(memory + start, len, fill);
    post(completion, entry, status, head, queue, phase);
    return 0;
}
