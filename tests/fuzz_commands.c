/* One command at random. */
#include "fuzz.h"

uint64_t salt;
uint32_t pool = 1, letters = 1, spite, storing, full; /* a question may need a key before the first history has its own */
int walking, quiet;

/* ---- keys: few enough to meet again, with proper beginnings and zero bytes behind among them */

static uint32_t key_of(uint32_t i, uint8_t key[16]) {
    static const uint8_t some[4] = {'A', 0x00, 0xff, 'B'};
    uint64_t kept = state;
    state = salt + i / 2 * 977;
    uint32_t max = model_key_max(ours()->index), len = 1 + below(max);
    if (letters == 256 && len < 3) len = max; /* a full store needs that many keys */
    for (uint32_t j = 0; j < 16; j++) key[j] = letters == 256 ? below(256) : some[below(letters)];
    if (i % 2 == 1 && len < max && one_in(2)) key[len++] = 0;
    else if (i % 2 == 1 && len > 1) len--;
    state = kept;
    return len;
}

/* one that is held, now and then by the other namespace, or one of the pool, which both share */
uint32_t some_key(uint8_t key[16]) {
    const struct model_space *s = one_in(4) ? held->spaces + held->count - 1 - turn : ours();
    rubbish(key, key + 8, 8);
    if (s->count > 0 && one_in(3)) {
        const struct model_pair *p = s->pairs + below(s->count);
        memcpy(key, p->key, p->key_len);
        return p->key_len;
    }
    uint8_t k[16];
    uint32_t len = key_of(below(pool), k);
    memcpy(key, k, len);
    return len;
}

/* ---- commands */

static int fault(void) { return below(1000) < spite; }

uint32_t some_amount(uint8_t opcode, uint32_t len) {
    uint32_t value_max = model_value_max(ours()->index), left = ours()->size - model_used(ours());
    if (fault()) return one_in(2) ? (uint32_t)next() : below(8);
    if (opcode == KV_LIST) return one_in(3) ? 4 + below(DATA - 3) : 4 + below(60);
    if (opcode == KV_RETRIEVE) return one_in(3) ? below(value_max + 2) : below(12);
    if (opcode != KV_STORE) return next();
    if (fault()) return value_max + below(2);
    if (full && !one_in(100)) return below(3); /* the slots are to be gone before the room */
    if (one_in(16)) return left >= len ? left - len + below(2) : 0; /* the last byte, and one more */
    return one_in(6) ? below(value_max + 1) : one_in(2) ? below(4) : below((value_max < left ? value_max : left) / 4 + 2);
}

static const uint8_t opcodes[5] = {KV_STORE, KV_RETRIEVE, KV_LIST, KV_DELETE, KV_EXIST};

/* by command: refused for a byte behind the key and nothing before it, and carried out once that was zero; the first also where a
 * List had no key, and where with zeros the key was too long for the format */
static uint64_t stale[5], cleared[5], stale_empty, stale_long;

/* the place in the entry of byte i of the key */
static uint8_t *key_byte(uint32_t i) { return real.entry + (i < 8 ? 8 + i : 48 + i); }

static void soil(uint32_t len) {
    uint32_t i = one_in(3) ? 15 : len + below(16 - len);
    do *key_byte(i++) = 1 + below(255);
    while (i < 16 && one_in(2));
}

/* an entry that was answered 02h given again with zeros behind the key: what it is answered now */
static uint32_t clean(uint32_t len, size_t entry_len, size_t completion_len, size_t room, size_t lend_d, size_t lend_v) {
    for (uint32_t i = len; i < 16; i++) *key_byte(i) = 0;
    memcpy(model.entry, real.entry, sizeof real.entry);
    uint32_t status = command(entry_len, completion_len, room, lend_d, lend_v);
    for (int i = 0; i < 5 && status != 0x02; i++) {
        if (real.entry[0] != opcodes[i]) continue;
        stale[i]++;
        cleared[i] += status == 0;
        stale_empty += len == 0 && opcodes[i] == KV_LIST;
        stale_long += status == 0x86 && len > 0;
    }
    return status;
}

int report_commands(void) {
    static const char *const names[5] = {"Store", "Retrieve", "List", "Delete", "Exist"};
    int missing = (stale_empty == 0) + (stale_long == 0);
    printf("bytes behind the key, refused and then with zeros carried out:");
    for (int i = 0; i < 5; i++) {
        printf(" %s %llu %llu", names[i], (unsigned long long)stale[i], (unsigned long long)cleared[i]);
        missing += (stale[i] == 0) + (cleared[i] == 0);
    }
    printf(", List with no key %llu, key too long %llu\n", (unsigned long long)stale_empty, (unsigned long long)stale_long);
    return missing;
}

uint32_t any_command(void) {
    uint8_t key[300], opcode = below(100) < storing ? KV_STORE : opcodes[below(5)], options = next();
    uint32_t len = some_key(key), nsid = ours()->id, lend_d = directory_len, lend_v = values_len;
    uint32_t needed_d = model_directory(held, held->count), needed_v = model_values(held, held->count), entry_len = 64, completion_len = 16;
    if (fault()) opcode = next();
    if (opcode == KV_STORE && !one_in(4)) options &= 0xfc;
    if (fault() || (opcode == KV_LIST && one_in(2))) len = one_in(4) ? 255 : below(21);
    if (opcode == KV_LIST && len > 16 && !fault()) len = 0;
    if (len < 16) memset(key + len, 0, 16 - len);
    int refused = quiet && (opcode == KV_STORE || opcode == KV_DELETE), fused = refused && one_in(2);
    if (refused && !fused && opcode == KV_STORE) options |= 3; /* both bits: refused whether the key is held or not */
    if (refused && !fused && opcode == KV_DELETE) nsid = stranger();
    if (fault()) nsid = stranger();
    if (!intact && one_in(4)) nsid = written_id();
    uint32_t amount = some_amount(opcode, len), room = amount < DATA ? amount : DATA;
    if (fault() && room > 0) room = one_in(2) ? room - 1 : below(room);
    else if (one_in(3)) room += below(DATA - room + 1 < 64 ? DATA - room + 1 : 64);
    if (fault() && one_in(2)) entry_len = one_in(2) ? 63 + 2 * below(2) : below(64 + SPARE);
    if (fault() && one_in(2)) completion_len = one_in(2) ? 15 + 2 * below(2) : below(16 + SPARE);
    if (!walking && fault() && one_in(2)) lend_d = one_in(3) ? needed_d - 1 : one_in(2) ? 62 + below(4) : below(directory_len + 1);
    if (!walking && fault() && one_in(2)) lend_v = one_in(3) ? needed_v - 1 : below(values_len + 1);

    rubbish(real.entry, model.entry, sizeof real.entry);
    if (one_in(8)) rubbish(real.completion, model.completion, sizeof real.completion);
    rubbish(real.data, model.data, room + 32 < DATA ? room + 32 : DATA);
    if (one_in(2) || build(entry_len, opcode, nsid, key, len, amount, options) != 0) {
        real.entry[0] = opcode;
        real.entry[1] &= 0xfc;
        memcpy(real.entry + 4, &nsid, 4);
        memcpy(real.entry + 8, key, 8);
        memcpy(real.entry + 40, &amount, 4);
        real.entry[44] = len;
        real.entry[45] = options;
        memcpy(real.entry + 56, key + 8, 8);
    }
    if (fused || fault()) real.entry[1] |= 1 + below(3);
    int soiled = len < 16 && one_in(10);
    if (soiled) soil(len);
    memcpy(model.entry, real.entry, sizeof real.entry);

    uint32_t status = command(entry_len, completion_len, room, lend_d, lend_v);
    if (soiled && status == 0x02) status = clean(len, entry_len, completion_len, room, lend_d, lend_v);
    if (status < 0x100 && one_in(4)) read_completion(real.completion, 16);
    if (status == 0 && opcode == KV_LIST && one_in(2)) pages(amount);
    if (refused && status == 0) differ("quiet: a change to be refused", status, 0x02);
    return status;
}
