/* Two farms, one cabinet: one namespace's commands given twice from the same formatting, each time among other commands of the other
 * namespace. What the first is told must be the same in both. */
#include "fuzz.h"

enum { DEEDS = 40 };

/* a command, the chance that its data buffer is filled from, and what it was told: status, Dword 0, its data buffer as one number, used
 * room and keys */
static struct deed {
    uint8_t entry[64];
    uint32_t room;
    uint64_t chance, told[5];
} deeds[DEEDS];

/* times that the commands were told the same, and successful Stores and Deletes of the other namespace while they were given, first and
 * again; pages and values that were handed over */
static uint64_t same, others[2], handed;

static uint64_t digest(const uint8_t *p, size_t n) {
    uint64_t all = n;
    for (size_t i = 0; i < n; i++) all = (all ^ p[i]) * 0x100000001b3;
    return all;
}

static void plan(struct deed *d) {
    static const uint8_t opcodes[8] = {KV_STORE, KV_STORE, KV_STORE, KV_STORE, KV_RETRIEVE, KV_LIST, KV_DELETE, KV_EXIST};
    uint8_t key[16], opcode = opcodes[below(8)];
    uint32_t len = opcode == KV_LIST && one_in(2) ? 0 : some_key(key), amount = some_amount(opcode, len);
    number("farms: built", build(64, opcode, ours()->id, key, len, amount, one_in(4) ? next() : 0), 0);
    memcpy(d->entry, real.entry, 64);
    d->room = amount < DATA ? amount : DATA;
    d->chance = next();
}

static void give(const struct deed *d, uint64_t told[5]) {
    uint64_t kept = state;
    memcpy(real.entry, d->entry, 64);
    memcpy(model.entry, d->entry, 64);
    state = d->chance;
    rubbish(real.data, model.data, d->room);
    state = kept;
    told[0] = command(64, 16, d->room, directory_len, values_len);
    told[1] = read_completion(real.completion, 16).dword0;
    told[2] = digest(real.data, d->room);
    struct kv_room room = poll(ours()->id, directory_len, values_len);
    told[3] = room.used;
    told[4] = room.keys;
    handed += told[0] == 0 && (d->entry[0] == KV_RETRIEVE || d->entry[0] == KV_LIST);
}

static void given_by_the_other(uint32_t pass) {
    turn = 1 - turn;
    for (uint32_t i = below(3); i > 0; i--)
        others[pass] += any_command() == 0 && (real.entry[0] == KV_STORE || real.entry[0] == KV_DELETE);
    turn = 1 - turn;
}

void any_farms(void) {
    static const char *const what[5] = {"farms: status", "farms: Dword 0", "farms: data", "farms: used room", "farms: keys"};
    uint32_t first = below(16), second = one_in(2) ? first : below(16), who = below(2), n = 1 + below(DEEDS);
    struct asked a[2] = {{first, 7, 1 + below(400)}, {second, 8, 1 + below(400)}};
    for (uint32_t pass = 0; pass < 2; pass++) {
        number("farms: formatted", format(a, 2, sizeof real.directory, sizeof real.values), 0);
        turn = who;
        for (uint32_t i = 0; i < n; i++) {
            uint64_t told[5];
            given_by_the_other(pass);
            if (pass == 0) plan(deeds + i);
            give(deeds + i, pass == 0 ? deeds[i].told : told);
            for (uint32_t j = 0; pass == 1 && j < 5; j++) number(what[j], told[j], deeds[i].told[j]);
        }
    }
    same++;
}

int report_farms(void) {
    printf("told the same beside other commands of the other namespace: %llu times, %llu pages and values; Stores and Deletes of the other %llu, then %llu\n",
           (unsigned long long)same, (unsigned long long)handed, (unsigned long long)others[0], (unsigned long long)others[1]);
    return (same == 0) + (handed == 0) + (others[0] == 0) + (others[1] == 0);
}
