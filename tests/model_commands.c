/* The model of one command. Steps and statuses are the papers' own, not the names of kv.h, so that a wrong name there is found too. */
#include "model_bytes.h"

static void list(const struct model_space *s, uint32_t at, uint8_t *data, uint32_t amount) {
    uint32_t end = 4, count = 0;
    for (; at < s->count; at++, count++) {
        const struct model_pair *p = s->pairs + at;
        if (end + entry_len_of(p->key_len) > amount) break; /* a later, shorter key is not tried */
        memset(data + end, 0, entry_len_of(p->key_len));
        put16(data + end, p->key_len);
        memcpy(data + end + 2, p->key, p->key_len);
        end += entry_len_of(p->key_len);
    }
    put32(data, count);
}

/* Steps a to j, then what the command does. */
static uint32_t status_of(struct model_store *m, const uint8_t *entry, uint8_t *data, size_t data_len, uint32_t *dword0) {
    uint8_t opcode = entry[0], options = entry[45], key[16];
    uint32_t len = entry[44], amount = get32(entry + 40);
    memcpy(key, entry + 8, 8);
    memcpy(key + 8, entry + 56, 8);
    if (m == 0) return 0x06;
    if (!one_of_five(opcode)) return 0x01;
    if (entry[1] % 4 != 0) return 0x02;
    struct model_space *s = model_named(m, get32(entry + 4));
    if (s == 0) return 0x0b;
    if (len > 16) return 0x02;
    if (!zeros(key + len, 16 - len)) return 0x02;
    if (len > model_key_max(s->index) || (len == 0 && opcode != LIST)) return 0x86;
    if (opcode == STORE && amount > model_value_max(s->index)) return 0x85;
    if (opcode == LIST && amount < 4) return 0x02;
    if ((opcode == STORE || opcode == RETRIEVE || opcode == LIST) && data_len < amount) return 0x04;
    uint32_t at = model_from(s, key, len);
    int present = at < s->count && !below(key, len, s->pairs[at].key, s->pairs[at].key_len);
    if (!present && (opcode == RETRIEVE || opcode == DELETE || opcode == EXIST)) return 0x87;
    if (!present && opcode == STORE && options % 2 == 1) return 0x87;
    if (present && opcode == STORE && options / 2 % 2 == 1) return 0x89;
    if (opcode == STORE) {
        if (!present && s->count == model_max_keys(s->index)) return 0x81;
        uint32_t old = present ? s->pairs[at].key_len + s->pairs[at].value_len : 0; /* goes out before the new pair comes in */
        if (model_used(s) - old + len + amount > s->size) return 0x81;
        model_set(s, at, present, key, len, data, amount);
    } else if (opcode == RETRIEVE) {
        uint32_t n = s->pairs[at].value_len;
        memcpy(data, model_value(s, at), amount < n ? amount : n);
        *dword0 = n; /* the whole value's length, however much was moved */
    } else if (opcode == LIST) {
        list(s, at, data, amount);
    } else if (opcode == DELETE) {
        model_drop(s, at);
    }
    return 0x00;
}

uint32_t model_command(struct model_store *m, const uint8_t *entry, size_t entry_len, uint8_t *completion, size_t completion_len,
                       uint8_t *data, size_t data_len, uint8_t *directory, uint8_t *values, uint16_t head, uint16_t queue,
                       uint16_t phase) {
    if (entry_len != 64) return 1;
    if (completion_len != 16) return 2;
    uint32_t dword0 = 0, status = status_of(m, entry, data, data_len, &dword0);
    if (status == 0x00 && (entry[0] == STORE || entry[0] == DELETE)) model_lay(m, directory, values);
    put_completion(completion, entry, dword0, status, head, queue, phase);
    return 0;
}
