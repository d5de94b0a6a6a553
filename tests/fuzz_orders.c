/* Two readers at the chute: two commands given in one order and in the other, on copies of one memory, each with the same data buffer and
 * the same queue numbers in both. */
#include "fuzz.h"

static const uint8_t opcodes[5] = {KV_STORE, KV_DELETE, KV_RETRIEVE, KV_LIST, KV_EXIST};

/* a command, what its data buffer, its completion and its queue numbers are drawn from, and what it was told in either order */
static struct reader {
    uint8_t entry[64];
    uint32_t kind, entry_len, room; /* `kind` is its opcode's place above */
    uint64_t chance;
    struct {
        uint32_t status;
        uint8_t completion[16], data[DATA];
    } told[2];
} readers[2];

static struct {
    uint8_t directory[sizeof real.directory], values[sizeof real.values];
} before, left;
static struct model_store maps;

/* one namespace: by Store and Delete, pairs that succeeded in both orders; pairs with a refusal that was not for room; and pairs that left
 * different stores; different namespaces: by command, pairs that both succeeded, pairs with a refusal among them, and pairs with an id that
 * none has */
static uint64_t swapped[2][2], vain, parted, beside[5][5], refused, strangers;

static void send(struct reader *r, uint32_t order) {
    uint64_t kept = state;
    state = r->chance;
    memcpy(real.entry, r->entry, 64);
    memcpy(model.entry, r->entry, 64);
    rubbish(real.completion, model.completion, 16);
    rubbish(real.data, model.data, r->room);
    r->told[order].status = command(r->entry_len, 16, r->room, directory_len, values_len);
    memcpy(r->told[order].completion, real.completion, 16);
    memcpy(r->told[order].data, real.data, r->room);
    state = kept;
}

static void in_order(uint32_t order) {
    memcpy(real.directory, before.directory, sizeof before.directory);
    memcpy(model.directory, before.directory, sizeof before.directory);
    memcpy(real.values, before.values, sizeof before.values);
    memcpy(model.values, before.values, sizeof before.values);
    *held = maps;
    send(readers + order, order);
    send(readers + 1 - order, order);
}

static int told_the_same(const struct reader *r) {
    return memcmp(r->told[0].completion, r->told[1].completion, 16) == 0 && memcmp(r->told[0].data, r->told[1].data, r->room) == 0;
}

/* whether both were told the same and every byte of the slices is the same */
static int in_either_order(void) {
    memcpy(before.directory, real.directory, sizeof before.directory);
    memcpy(before.values, real.values, sizeof before.values);
    maps = *held;
    in_order(0);
    memcpy(left.directory, real.directory, sizeof left.directory);
    memcpy(left.values, real.values, sizeof left.values);
    in_order(1);
    return told_the_same(readers) && told_the_same(readers + 1) && memcmp(left.directory, real.directory, sizeof left.directory) == 0
           && memcmp(left.values, real.values, sizeof left.values) == 0;
}

static int succeeded(const struct reader *r) { return r->told[0].status == 0 && r->told[1].status == 0; }

static int found_room(const struct reader *r) { return r->told[0].status != 0x81 && r->told[1].status != 0x81; }

static void plan(struct reader *r, uint32_t kind, uint32_t id, const uint8_t *key, uint32_t len, uint32_t amount) {
    number("orders: built", build(64, opcodes[kind], id, key, len, amount, one_in(8) ? next() : 0), 0);
    memcpy(r->entry, real.entry, 64);
    r->kind = kind;
    r->entry_len = 64;
    r->room = amount < DATA && kind != 1 && kind != 4 ? amount : 0;
    r->chance = next();
}

/* a key that is held, where the command is to find one, else any */
static uint32_t draw(uint32_t kind, uint8_t key[16]) {
    if (kind == 0 || kind == 3 || ours()->count == 0 || one_in(4)) return some_key(key);
    const struct model_pair *p = ours()->pairs + below(ours()->count);
    memcpy(key, p->key, p->key_len);
    return p->key_len;
}

/* a Store now and then takes all the room that there is */
static uint32_t asked_room(uint32_t kind, uint32_t len) {
    uint32_t left = ours()->size - model_used(ours()), most = model_value_max(ours()->index);
    if (kind != 0 || !one_in(4) || left < len) return some_amount(opcodes[kind], len);
    return left - len < most ? left - len : most;
}

/* Stores and Deletes of different keys, one namespace */
static void rivals(void) {
    uint8_t keys[2][16];
    uint32_t lens[2], kinds[2] = {below(2), below(2)};
    for (uint32_t i = 0; i < 2; i++) lens[i] = draw(kinds[i], keys[i]);
    if (lens[0] == lens[1] && memcmp(keys[0], keys[1], lens[0]) == 0) keys[1][0] ^= 1 + below(255);
    for (uint32_t i = 0; i < 2; i++) plan(readers + i, kinds[i], ours()->id, keys[i], lens[i], asked_room(kinds[i], lens[i]));
    int same = in_either_order(), all = succeeded(readers) && succeeded(readers + 1), room = found_room(readers) && found_room(readers + 1);
    if (room && !same) differ("orders: one namespace, none refused for room", 0, 1);
    swapped[kinds[0]][kinds[1]] += all;
    vain += room && !all;
    parted += !same;
}

/* any commands, of two namespaces or of an id that none has */
static void neighbours(void) {
    int stray = held->count == 1 || one_in(8);
    for (uint32_t i = 0; i < 2; i++) {
        uint8_t key[16];
        uint32_t kind = below(5), len = kind == 3 && one_in(2) ? 0 : draw(kind, key);
        plan(readers + i, kind, i == 1 && stray ? stranger() : ours()->id, key, len, asked_room(kind, len));
        if (one_in(16)) readers[i].entry[8 + below(56)] ^= 1 << below(8);
        if (one_in(32)) readers[i].entry_len = 63;
        if (held->count == 2) turn = 1 - turn;
    }
    if (!in_either_order()) differ("orders: different namespaces", 0, 1);
    int all = succeeded(readers) && succeeded(readers + 1);
    beside[readers[0].kind][readers[1].kind] += all;
    refused += !all;
    strangers += stray;
}

void any_orders(void) {
    uint32_t two = held->count - 1;
    for (uint32_t i = 1 + below(4 + 44 * two); i > 0; i--) {
        take_turn();
        if (one_in(2)) rivals();
        else neighbours();
    }
}

int report_orders(void) {
    static const char *const names[5] = {"Store", "Delete", "Retrieve", "List", "Exist"};
    int missing = (vain == 0) + (parted == 0) + (refused == 0) + (strangers == 0);
    printf("in either order, one namespace, both with success:");
    for (int i = 0; i < 2; i++)
        for (int j = 0; j < 2; j++) {
            printf(" %s and %s %llu,", names[i], names[j], (unsigned long long)swapped[i][j]);
            missing += swapped[i][j] == 0;
        }
    printf(" with a refusal but not for room %llu, and left different stores after an 81h %llu\n", (unsigned long long)vain,
           (unsigned long long)parted);
    printf("in either order, two namespaces, both with success, by command:");
    for (int i = 0; i < 5; i++) {
        printf(" %s", names[i]);
        for (int j = 0; j < 5; j++) {
            printf(" %llu", (unsigned long long)beside[i][j]);
            missing += beside[i][j] == 0;
        }
    }
    printf("; with a refusal %llu, with an id of none %llu\n", (unsigned long long)refused, (unsigned long long)strangers);
    return missing;
}
