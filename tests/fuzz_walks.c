/* Walks over all keys of a namespace, by List after List, with other calls in between, those of the other namespace among them. */
#include "fuzz.h"

/* Every key that was held at some time of the walk, whether it was held all the time, and how often the walk found it. */
struct met {
    uint8_t key[16];
    uint32_t len, found;
    int whole;
};

enum { MANY = 2, MET = 8192 };

static struct met met[MET];
static uint32_t met_count;
/* walks that nothing changed, over 0, 1 and more keys; of the last those that took n + 1 Lists for n keys; the other walks, and how
 * often in these the last key seen was gone when the next List began at it; and Stores and Deletes of the other namespace in between */
static uint64_t walks[MANY + 1], tight, changed, gone, beside[2];

/* the search goes on behind the one before: a walk mostly asks for the next */
static struct met *meet(const uint8_t *key, uint32_t len) {
    static uint32_t at;
    for (uint32_t i = 0; i < met_count; i++) {
        at = at + 1 < met_count ? at + 1 : 0;
        if (met[at].len == len && memcmp(met[at].key, key, len) == 0) return met + at;
    }
    return 0;
}

static void meet_new(const uint8_t *key, uint32_t len, int whole) {
    struct met *m = met + met_count++;
    if (met_count > MET) differ("walk: keys met", met_count, MET);
    memset(m, 0, sizeof *m);
    memcpy(m->key, key, len);
    m->len = len;
    m->whole = whole;
}

/* the Store or Delete that has just been done: whether it was one */
static int noted(void) {
    uint8_t key[16];
    if (real.entry[0] != KV_STORE && real.entry[0] != KV_DELETE) return 0;
    memcpy(key, real.entry + 8, 8);
    memcpy(key + 8, real.entry + 56, 8);
    struct met *m = meet(key, real.entry[44]);
    if (m == 0) meet_new(key, real.entry[44], 0);
    else if (real.entry[0] == KV_DELETE) m->whole = 0;
    return 1;
}

/* A command of the other namespace, now and then on the key that the walk has come to: the walk is to take no notice. */
static void given_beside(const uint8_t *last, uint32_t last_len) {
    uint32_t status;
    turn = 1 - turn;
    if (one_in(3) && last_len <= model_key_max(ours()->index)) {
        rubbish(real.data, model.data, 8);
        number("walk: built", build(64, one_in(2) ? KV_STORE : KV_DELETE, ours()->id, last, last_len, below(8), 0), 0);
        status = command(64, 16, 8, directory_len, values_len);
    } else status = any_command();
    if (status == 0) beside[0] += real.entry[0] == KV_STORE, beside[1] += real.entry[0] == KV_DELETE;
    turn = 1 - turn;
}

/* Other calls, between two Lists of a walk that has come to `last`; returns how many of them changed its namespace. */
static int between(int changing, const uint8_t *last, uint32_t last_len) {
    int changes = 0;
    walking = 1;
    for (uint32_t i = below(3); i > 0; i--) {
        quiet = 0;
        if (one_in(10)) bad_format();
        else if (one_in(10)) read_completion(real.completion, 16);
        else if (one_in(10)) any_poll(directory_len, values_len);
        else if (held->count == 2 && one_in(2)) given_beside(last, last_len);
        else if (changing && one_in(8)) {
            number("walk: built", build(64, KV_DELETE, ours()->id, last, last_len, 0, 0), 0);
            changes += command(64, 16, 0, directory_len, values_len) == 0 && noted();
        } else {
            quiet = !changing;
            changes += any_command() == 0 && noted();
        }
    }
    walking = quiet = 0;
    return changes;
}

static uint32_t page_entry(uint32_t key_len) { return (key_len + 5) / 4 * 4; }

/* the smallest size of a page that has room for two keys, however long */
static uint32_t two_keys(void) { return 4 + 2 * page_entry(model_key_max(ours()->index)); }

/* below 0, 0 or above 0, as the first key is below the second, the same or above it */
static int order(const uint8_t *a, uint32_t a_len, const uint8_t *b, uint32_t b_len) {
    int first = memcmp(a, b, a_len < b_len ? a_len : b_len);
    return first != 0 ? first : (int)a_len - (int)b_len;
}

/* the size at which the page from `last` on brings one new key and no second; where there is none, the smallest for two */
static uint32_t one_new(const uint8_t *last, uint32_t last_len) {
    uint32_t size = 4;
    for (uint32_t i = 0; i < ours()->count; i++) {
        const struct model_pair *p = ours()->pairs + i;
        int above = order(p->key, p->key_len, last, last_len);
        if (above < 0) continue;
        size += page_entry(p->key_len);
        if (above > 0) return size;
    }
    return two_keys();
}

/* A host's walk: each List begins at the last key seen, that key is dropped where the page repeats it, and a page without a new
 * key is the last. Size 0 stands for one new key on each page, and 1 for a size chosen anew for each List. The keys rise; each that
 * was held throughout comes once, and no other twice, nor one that was not held. No walk takes more than n + 1 Lists for n keys. */
static void walk(uint32_t size, int changing) {
    static const uint32_t some[4] = {44, 45, 64, 300};
    uint8_t last[16] = {0};
    uint32_t last_len = 0, lists = 0, fresh, n = ours()->count;
    int changes = 0;
    met_count = 0;
    for (uint32_t i = 0; i < n; i++) meet_new(ours()->pairs[i].key, ours()->pairs[i].key_len, 1);
    do {
        uint32_t room = size == 0 ? one_new(last, last_len) : size == 1 ? some[below(4)] : size, count = 1;
        fresh = 0;
        number("walk: built", build(64, KV_LIST, ours()->id, last, last_len, room, next()), 0);
        rubbish(real.data, model.data, 48);
        number("walk: status", command(64, 16, room, directory_len, values_len), 0);
        number("walk: completion", read_completion(real.completion, 16).status, 0);
        lists++;
        for (uint32_t i = 0; i < count; i++) {
            struct kv_page_key k = read_page(real.data, room, i);
            number("walk: page", k.number, 0);
            count = k.count;
            if (count == 0 || (i == 0 && order(k.key, k.len, last, last_len) == 0)) continue;
            number("walk: above the key before", order(k.key, k.len, last, last_len) > 0, 1);
            gone += i == 0 && last_len > 0;
            struct met *m = meet(k.key, k.len);
            if (m == 0) differ("walk: a key that was never held", k.len, 0);
            m->found++;
            memcpy(last, k.key, 16);
            last_len = k.len;
            fresh++;
        }
        if (size == 0 && fresh > 1) differ("walk: new keys on a page for one", fresh, 1);
        if (lists > met_count + 1) differ("walk: Lists", lists, met_count + 1);
        if (fresh > 0) changes += between(changing && met_count < MET / 2, last, last_len);
    } while (fresh > 0);
    for (uint32_t i = 0; i < met_count; i++)
        if (met[i].whole) number("walk: found a key that was held throughout", met[i].found, 1);
    if (changing && changes > 0) {
        changed++;
        return;
    }
    number("walk: changes", changes, 0);
    number("walk: keys at the end", ours()->count, n);
    if (size == 0) number("walk: Lists, at one new key each", lists, n + 1);
    tight += n >= MANY && lists == n + 1;
    walks[n < MANY ? n : MANY]++;
}

void any_walk(void) {
    take_turn();
    uint32_t least = two_keys(), sizes[8] = {0, 0, 1, least, least + 1, 44, 100, DATA};
    walk(sizes[below(8)], one_in(3));
}

int report_walks(void) {
    int missing = 0;
    printf("walks over 0, 1 and more keys: %llu %llu %llu, ", (unsigned long long)walks[0], (unsigned long long)walks[1],
           (unsigned long long)walks[MANY]);
    printf("the last %llu times by n + 1 Lists; ", (unsigned long long)tight);
    printf("while keys came and went: %llu, ", (unsigned long long)changed);
    printf("the last key seen gone: %llu; ", (unsigned long long)gone);
    printf("beside it in the other namespace: Stores %llu, Deletes %llu\n", (unsigned long long)beside[0], (unsigned long long)beside[1]);
    for (int i = 0; i <= MANY; i++) missing += walks[i] == 0;
    return missing + (tight == 0) + (changed == 0) + (gone == 0) + (beside[0] == 0) + (beside[1] == 0);
}
