/* Damaged memory for the device. */
#include "fuzz.h"

/* memory that the damage left legal or not, with one namespace and with two; and of the last that which had nothing wrong but the sum of
 * its sizes */
static uint64_t illegal[2], legal[2], oversized;

static void put32(uint8_t *p, uint32_t n) { memcpy(p, &n, 4); }

static uint32_t near(uint32_t n) {
    uint32_t some[8] = {n + 1, n - 1, 0, n ^ 1u << below(32), 0xffffffff, n + 256, n + 65536, next()};
    return some[below(8)];
}

/* Where the parts of the namespace lie whose turn it is, and one of its records. */
static uint8_t *half, *records, *room, *record, *last;
static uint32_t chosen, used;

static void locate(void) {
    uint32_t n = ours()->count;
    half = real.directory + 32 * turn;
    records = real.directory + model_directory(held, turn);
    room = real.values + model_values(held, turn);
    chosen = n > 0 ? below(n) : 0;
    record = records + 32 * chosen;
    last = records + 32 * (n > 0 ? n - 1 : 0);
    used = model_used(ours());
}

static void damage_head(void) {
    const struct model_space *s = ours();
    uint32_t id = next();
    switch (below(9)) {
    case 0: half[below(32)] ^= 1 << below(8); break;
    case 1: put32(half + 4 * below(8), near(0)); break;
    case 2: put32(half, near(s->id)); break;
    case 3: put32(half + 4, one_in(2) ? below(17) : near(s->index)); break;
    case 4: put32(half + 8, one_in(4) ? near(s->size) : used + below(3) - 1); break; /* legal down to the used room, where it is the last */
    case 5: put32(half + 8, one_in(2) ? s->size + below(9) : 65535 + below(3)); break;
    case 6: put32(half + 12, near(s->count)); break;
    case 7: put32(half + 16, near(used)); break; /* the sum alone */
    default: /* legal: another namespace */
        put32(half, id);
        for (uint32_t j = 0; j < s->count; j++) put32(records + 32 * j + 28, id);
    }
}

static void damage_record(void) {
    const struct model_space *s = ours();
    uint32_t n = s->count, key_len = n > 0 ? s->pairs[chosen].key_len : 0, field = 16 + 4 * below(4), was, grown;
    uint8_t swap[16];
    switch (below(8)) {
    case 0: put32(record + field, near(0)); break;
    case 1:
        memcpy(&was, record + field, 4);
        put32(record + field, near(was));
        break;
    case 2: /* two pairs in the wrong order, all else right where their lengths agree */
        if (n < 2 || chosen + 1 == n) break;
        memcpy(swap, record, 16);
        memcpy(record, record + 32, 16);
        memcpy(record + 32, swap, 16);
        break;
    case 3: if (n > 1 && chosen > 0) memcpy(record, record - 32, 20); break; /* the same key twice */
    case 4: /* legal if its value was empty */
        if (n == 0) break;
        memset(last, 0, 32);
        put32(half + 12, n - 1);
        put32(half + 16, used - s->pairs[n - 1].key_len);
        break;
    case 5: /* legal while there is room, up to value max */
        if (n == 0) break;
        grown = one_in(2) ? s->pairs[n - 1].value_len + below(4) : model_value_max(s->index) + below(2);
        put32(last + 24, grown);
        put32(half + 16, used - s->pairs[n - 1].value_len + grown);
        break;
    case 6: if (n > 0 && key_len < 16) record[key_len + below(16 - key_len)] = 1; break;
    default: if (n > 0) record[16]++, put32(half + 16, used + 1); /* one zero byte more in the key: legal if order, room and format allow it */
    }
}

static void damage_bytes(void) {
    const struct model_space *s = ours();
    uint32_t n = s->count, max = model_max_keys(s->index), live = 32 * (n < max ? n + 1 : n), sum = 0;
    for (uint32_t j = 0; j < n; j++) sum += s->pairs[j].value_len;
    switch (below(7)) {
    case 0: records[below(live)] ^= 1 << below(8); break;
    case 1: real.directory[below(model_directory(held, held->count))] = next(); break;
    case 2: room[below(s->size)] ^= 1 << below(8); break;
    case 3: /* bytes past the needed part: legal */
        real.directory[model_directory(held, held->count) + below(SPARE)] = next();
        real.values[model_values(held, held->count) + below(SPARE)] = next();
        break;
    case 4: /* the last bytes of the namespace's parts */
        if (one_in(2)) records[32 * max - 1] ^= 1;
        else room[s->size - 1] ^= 1;
        break;
    case 5: memset(records + below(live), 0, 1 + below(32)); break;
    default: memset(room + (sum < s->size ? sum : 0), below(2), 1 + below(8));
    }
}

/* the last namespace's size up to the most that there can be, or one byte more, with zeros there and the slice lent as long: legal but for
 * the sum */
static void grow_last(void) {
    uint32_t n = held->count, more = below(2), end = model_values(held, n);
    put32(real.directory + 32 * (n - 1) + 8, 65536 + more - model_values(held, n - 1));
    memset(real.values + end, 0, sizeof real.values - end);
    values_len = sizeof real.values;
    oversized += n == 2 && more;
}

/* The two halves, one against the other. With one namespace the second is made up; with two either is given what the other has. */
static void damage_halves(void) {
    uint8_t *first = real.directory, *second = real.directory + 32, swap[32];
    uint32_t index = below(16), size = one_in(2) ? 65536 - held->spaces[0].size + below(2) : below(9);
    uint32_t slots = model_directory(held, 1), end = slots + 32 * model_max_keys(index), place = model_values(held, 1);
    memcpy(swap, first, 32);
    switch (below(8)) {
    case 0: /* equal ids */
        put32(half, held->spaces[held->count - 1 - turn].id);
        for (uint32_t j = 0; j < ours()->count; j++) put32(records + 32 * j + 28, held->spaces[held->count - 1 - turn].id);
        break;
    case 1: /* legal where both hold nothing and need as much as before */
        memcpy(first, second, 32);
        memcpy(second, swap, 32);
        break;
    case 2: memset(first, 0, 32); break;
    case 3: memset(second, 0, 32); break; /* legal: what the second had lies behind the needed part then */
    case 4: put32(second, 0); break;
    case 5: second[4 + below(28)] = 1; break;
    case 6: grow_last(); break;
    default: /* a second half made up: legal where its id is none of the others, the slices are long enough, and the sizes fit together */
        memset(second, 0, 32);
        put32(second, one_in(4) ? held->spaces[0].id : one_in(4) ? near(0) : stranger());
        put32(second + 4, index);
        put32(second + 8, size);
        if (end <= sizeof real.directory) memset(first + slots, 0, end - slots);
        if (place + size <= sizeof real.values) memset(real.values + place, 0, size);
    }
}

static void damage(void) {
    take_turn();
    locate();
    switch (below(held->count == 2 ? 14 : 10)) {
    case 0: case 1: case 2: damage_head(); break;
    case 3: case 4: case 5: damage_record(); break;
    case 6: case 7: damage_bytes(); break;
    default: damage_halves();
    }
    memcpy(model.directory, real.directory, sizeof real.directory);
    memcpy(model.values, real.values, sizeof real.values);
}

/* the damage left legal memory: the history goes on from it */
static void go_on(void) {
    struct model_store *other = held;
    held = seen;
    seen = other;
    intact = 1;
    take_turn();
}

static void put_back(const struct side *saved, size_t length) {
    values_len = length;
    memcpy(real.directory, saved->directory, sizeof saved->directory);
    memcpy(real.values, saved->values, sizeof saved->values);
    memcpy(model.directory, saved->directory, sizeof saved->directory);
    memcpy(model.values, saved->values, sizeof saved->values);
    intact = 1;
}

void damaged(void) {
    static struct side saved;
    size_t length = values_len;
    saved = real;
    intact = 0;
    for (uint32_t i = 1 + (one_in(4) ? below(3) : 0); i > 0; i--) damage();
    int fit = model_read(seen, model.directory, directory_len, model.values, values_len);
    (fit ? legal : illegal)[held->count - 1]++;
    if (one_in(2)) any_poll(directory_len, values_len);
    if (one_in(2)) any_identify(directory_len, values_len);
    for (uint32_t i = below(4); i > 0; i--) any_known(directory_len, values_len);
    for (uint32_t i = 1 + below(4); i > 0; i--) {
        take_turn();
        any_command();
    }
    if (one_in(10)) bad_format();
    if (!full && one_in(10)) any_format();
    int goes_on = !full && one_in(2); /* what is to be filled keeps its size */
    if (!intact && goes_on && model_read(seen, model.directory, directory_len, model.values, values_len)) go_on();
    if (!intact) put_back(&saved, length);
}

int report_damage(void) {
    printf("damage: with one namespace not legal %llu, legal %llu; with two not legal %llu, of these too large together %llu, legal %llu\n",
           (unsigned long long)illegal[0], (unsigned long long)legal[0], (unsigned long long)illegal[1], (unsigned long long)oversized,
           (unsigned long long)legal[1]);
    return (illegal[0] == 0) + (legal[0] == 0) + (illegal[1] == 0) + (legal[1] == 0) + (oversized == 0);
}
