/* The model: maps, and the memory that is their image. Numbers are the papers' own, not the names of kv.h, so that a wrong name there
 * is found too. */
#include "model_bytes.h"

/* ---- the sixteen formats and the map */

uint32_t model_key_max(uint32_t index) { return 4 * (index % 4 + 1); }

uint32_t model_value_max(uint32_t index) {
    static const uint32_t max[4] = {64, 256, 1024, 4096};
    return max[index / 4];
}

uint32_t model_max_keys(uint32_t index) {
    static const uint32_t max[4] = {1024, 256, 64, 16};
    return max[index / 4];
}

static uint8_t *cell(struct model_space *s, uint32_t i) { return s->cells + i * model_value_max(s->index); }

const uint8_t *model_value(const struct model_space *s, uint32_t i) { return s->cells + i * model_value_max(s->index); }

uint32_t model_used(const struct model_space *s) {
    uint32_t used = 0;
    for (uint32_t i = 0; i < s->count; i++) used += s->pairs[i].key_len + s->pairs[i].value_len;
    return used;
}

static int same_space(const struct model_space *a, const struct model_space *b) {
    if (a->index != b->index || a->id != b->id || a->size != b->size || a->count != b->count) return 0;
    for (uint32_t i = 0; i < a->count; i++) {
        const struct model_pair *p = a->pairs + i, *q = b->pairs + i;
        if (p->key_len != q->key_len || memcmp(p->key, q->key, p->key_len) != 0 || p->value_len != q->value_len) return 0;
        if (memcmp(model_value(a, i), model_value(b, i), p->value_len) != 0) return 0;
    }
    return 1;
}

int model_same(const struct model_store *a, const struct model_store *b) {
    if (a->count != b->count) return 0;
    for (uint32_t i = 0; i < a->count; i++)
        if (!same_space(a->spaces + i, b->spaces + i)) return 0;
    return 1;
}

struct model_space *model_named(struct model_store *m, uint32_t id) {
    for (uint32_t i = 0; i < m->count; i++)
        if (m->spaces[i].id == id) return m->spaces + i;
    return 0;
}

uint32_t model_from(const struct model_space *s, const uint8_t *key, uint32_t len) {
    uint32_t i = 0;
    while (i < s->count && below(s->pairs[i].key, s->pairs[i].key_len, key, len)) i++;
    return i;
}

void model_set(struct model_space *s, uint32_t at, int present, const uint8_t *key, uint32_t len, const uint8_t *value, uint32_t n) {
    if (!present) {
        memmove(s->pairs + at + 1, s->pairs + at, (s->count - at) * sizeof *s->pairs);
        memmove(cell(s, at + 1), cell(s, at), (s->count - at) * model_value_max(s->index));
        s->count++;
    }
    memcpy(s->pairs[at].key, key, len);
    s->pairs[at].key_len = len;
    s->pairs[at].value_len = n;
    memcpy(cell(s, at), value, n);
}

void model_drop(struct model_space *s, uint32_t at) {
    s->count--;
    memmove(s->pairs + at, s->pairs + at + 1, (s->count - at) * sizeof *s->pairs);
    memmove(cell(s, at), cell(s, at + 1), (s->count - at) * model_value_max(s->index));
}

/* ---- the memory */

size_t model_directory(const struct model_store *m, uint32_t n) {
    size_t bytes = 64;
    for (uint32_t i = 0; i < n; i++) bytes += 32 * model_max_keys(m->spaces[i].index);
    return bytes;
}

size_t model_values(const struct model_store *m, uint32_t n) {
    size_t bytes = 0;
    for (uint32_t i = 0; i < n; i++) bytes += m->spaces[i].size;
    return bytes;
}

static void lay_space(const struct model_space *s, uint8_t *half, uint8_t *records, uint8_t *values) {
    put32(half, s->id);
    put32(half + 4, s->index);
    put32(half + 8, s->size);
    put32(half + 12, s->count);
    put32(half + 16, model_used(s));
    uint32_t place = 0; /* counts from where the namespace's own values begin */
    for (uint32_t i = 0; i < s->count; i++) {
        const struct model_pair *p = s->pairs + i;
        uint8_t *record = records + 32 * i;
        memcpy(record, p->key, p->key_len);
        put32(record + 16, p->key_len);
        put32(record + 20, place);
        put32(record + 24, p->value_len);
        put32(record + 28, s->id);
        memcpy(values + place, model_value(s, i), p->value_len);
        place += p->value_len;
    }
}

void model_lay(const struct model_store *m, uint8_t *directory, uint8_t *values) {
    memset(directory, 0, model_directory(m, m->count));
    memset(values, 0, model_values(m, m->count));
    for (uint32_t i = 0; i < m->count; i++)
        lay_space(m->spaces + i, directory + 32 * i, directory + model_directory(m, i), values + model_values(m, i));
}

struct asked {
    uint32_t index, id;
    uint64_t size;
};

/* Numbers 3 to 6 and 19, of one namespace or two. */
static uint32_t refusal(const struct asked *a, uint32_t n, size_t directory_len, size_t values_len) {
    uint64_t slots = 0, room = 0;
    for (uint32_t i = 0; i < n; i++) {
        if (a[i].index > 15) return 3;
        if (a[i].id == 0 || a[i].id == 0xffffffff) return 4;
        if (a[i].size < 1 || a[i].size > 65536) return 5;
        slots += model_max_keys(a[i].index);
        room += a[i].size;
    }
    if (n == 2 && a[0].id == a[1].id) return 19;
    if (room > 65536) return 5;
    return directory_len < 64 + 32 * slots || values_len < room ? 6 : 0;
}

static int reads_pairs(struct model_space *s, const uint8_t *records, const uint8_t *values) {
    for (uint32_t i = 0; i < s->count; i++) {
        const uint8_t *record = records + 32 * i;
        uint32_t len = get32(record + 16), place = get32(record + 20), n = get32(record + 24);
        if (len > 16 || n > model_value_max(s->index) || place > s->size || n > s->size - place) return 0;
        memcpy(s->pairs[i].key, record, len);
        s->pairs[i].key_len = len;
        s->pairs[i].value_len = n;
        memcpy(cell(s, i), values + place, n);
    }
    return 1;
}

/* Maps out of the bytes, as far as there are any: the head's numbers, and of each record its key and the bytes that it points
 * at. Only what could not be kept in `m` or would be read past a size stops it; all else is left to the comparison below. */
static int reads(struct model_store *m, const uint8_t *directory, size_t directory_len, const uint8_t *values, size_t values_len) {
    struct asked a[2];
    if (directory_len < 64) return 0;
    m->count = zeros(directory + 32, 32) ? 1 : 2;
    for (uint32_t i = 0; i < m->count; i++) {
        const uint8_t *half = directory + 32 * i;
        struct model_space *s = m->spaces + i;
        s->id = a[i].id = get32(half);
        s->index = a[i].index = get32(half + 4);
        s->size = a[i].size = get32(half + 8);
        s->count = get32(half + 12);
    }
    if (refusal(a, m->count, directory_len, values_len) != 0) return 0;
    for (uint32_t i = 0; i < m->count; i++) {
        struct model_space *s = m->spaces + i;
        if (s->count > model_max_keys(s->index)) return 0;
        if (!reads_pairs(s, directory + model_directory(m, i), values + model_values(m, i))) return 0;
    }
    return 1;
}

/* The limits of the formatting, and that the pairs are a map: no key twice, and in the one order in which they are laid. */
static int within(const struct model_space *s) {
    for (uint32_t i = 0; i < s->count; i++) {
        const struct model_pair *p = s->pairs + i;
        if (p->key_len < 1 || p->key_len > model_key_max(s->index)) return 0;
        if (i > 0 && !below(p[-1].key, p[-1].key_len, p->key, p->key_len)) return 0;
    }
    return model_used(s) <= s->size;
}

/* Memory is legal if it is the image of what was read: so that is laid out anew, and every needed byte compared. Where a fault lies, or of
 * what kind it is, is not asked: this shares no test of a field with what the module does. */
int model_read(struct model_store *m, const uint8_t *directory, size_t directory_len, const uint8_t *values, size_t values_len) {
    static uint8_t head_and_records[64 + 32 * 2048], room[65536];
    if (!reads(m, directory, directory_len, values, values_len)) return 0;
    for (uint32_t i = 0; i < m->count; i++)
        if (!within(m->spaces + i)) return 0;
    model_lay(m, head_and_records, room);
    return memcmp(directory, head_and_records, model_directory(m, m->count)) == 0 && memcmp(values, room, model_values(m, m->count)) == 0;
}

static uint32_t lay_empty(const struct asked *a, uint32_t n, uint8_t *directory, size_t directory_len, uint8_t *values, size_t values_len) {
    static struct model_store empty;
    uint32_t number = refusal(a, n, directory_len, values_len);
    if (number != 0) return number;
    empty.count = n;
    for (uint32_t i = 0; i < n; i++) {
        empty.spaces[i].index = a[i].index;
        empty.spaces[i].id = a[i].id;
        empty.spaces[i].size = a[i].size;
    }
    model_lay(&empty, directory, values);
    return 0;
}

uint32_t model_format(uint32_t index, uint32_t id, uint64_t size, uint8_t *directory, size_t directory_len, uint8_t *values,
                      size_t values_len) {
    return lay_empty(&(struct asked){index, id, size}, 1, directory, directory_len, values, values_len);
}

uint32_t model_format_two(uint32_t index1, uint32_t id1, uint64_t size1, uint32_t index2, uint32_t id2, uint64_t size2,
                          uint8_t *directory, size_t directory_len, uint8_t *values, size_t values_len) {
    struct asked a[2] = {{index1, id1, size1}, {index2, id2, size2}};
    return lay_empty(a, 2, directory, directory_len, values, values_len);
}

/* What the poll gives, by the map that stands in the memory: the head's own sum is compared with the map's when that is read. */
struct kv_room model_room(uint32_t id, const uint8_t *directory, size_t directory_len, const uint8_t *values, size_t values_len) {
    static struct model_store m;
    if (!model_read(&m, directory, directory_len, values, values_len)) return (struct kv_room){18, 0, 0};
    const struct model_space *s = model_named(&m, id);
    return s == 0 ? (struct kv_room){23, 0, 0} : (struct kv_room){0, model_used(s), s->count};
}
