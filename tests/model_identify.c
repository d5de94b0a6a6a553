/* The model of the Identify page, written and read, and of the fields that a formatting is taken from. Numbers are the papers'
 * own, not the names of kv.h, so that a wrong name there is found too. */
#include "model_bytes.h"

static uint64_t get64(const uint8_t *p) { return get32(p) + 4294967296u * (uint64_t)get32(p + 4); }

/* size and used room have eight bytes each on the page, and of those the upper four are always zero */
static void lay_page(const struct model_space *s, uint8_t *page) {
    memset(page, 0, 4096);
    put32(page, s->size);
    put32(page + 16, model_used(s));
    page[25] = 16 - 1; /* the formats, counted from 0 */
    page[29] = s->index;
    for (uint32_t i = 0; i < 16; i++) {
        uint8_t *descriptor = page + 72 + 16 * i;
        put16(descriptor, model_key_max(i));
        put32(descriptor + 4, model_value_max(i));
        put32(descriptor + 8, model_max_keys(i));
    }
}

uint32_t model_identify(uint8_t *page, size_t page_len, uint32_t id, const uint8_t *directory, size_t directory_len,
                        const uint8_t *values, size_t values_len) {
    static struct model_store m;
    if (page_len != 4096) return 14;
    if (!model_read(&m, directory, directory_len, values, values_len)) return 18;
    const struct model_space *s = model_named(&m, id);
    if (s == 0) return 23;
    lay_page(s, page);
    return 0;
}

struct kv_identity model_read_identify(const uint8_t *page, size_t page_len, uint32_t ordinal) {
    struct kv_identity r;
    memset(&r, 0, sizeof r);
    r.number = 14;
    if (page_len != 4096) return r;
    r.number = 0;
    r.formats = page[25] + 1;
    r.index = page[29] % 16;
    r.size = get64(page);
    r.used = get64(page + 16);
    uint64_t at = 72 + 16 * (uint64_t)ordinal;
    if (ordinal >= r.formats || at + 16 > 4096) return r;
    r.keymax = get16(page + at);
    r.valuemax = get32(page + at + 4);
    r.maxkeys = get32(page + at + 8);
    return r;
}

uint32_t model_format_fields(const uint8_t *fields, size_t fields_len, uint32_t id, uint8_t *directory, size_t directory_len,
                             uint8_t *values, size_t values_len) {
    if (fields_len != 512) return 14;
    return model_format(fields[31] % 16, id, get64(fields), directory, directory_len, values, values_len);
}
