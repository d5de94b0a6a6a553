/* One call on a store, for counting its instructions: a command, with Again a Store over a held key, or kv_used, kv_identify or kv_known, with
   Known for the key that Exist asks for, with Unknown for an absent one that takes the most looks. `driver CALL N HOW` writes a store of n keys
   in each namespace to standard output; `driver CALL N HOW give` reads it and makes the call once, to the last namespace, and
   `driver CALL N HOW skip` does all but that. */
#include "kv.h"

typedef struct file FILE;
extern FILE *stdin, *stdout;
size_t fread(void *, size_t, size_t, FILE *);
size_t fwrite(const void *, size_t, size_t, FILE *);
int atoi(const char *);
void *memcpy(void *, const void *, size_t);
void *memset(void *, int, size_t);

enum { INDEX = 1, PAGE = 4096 };

/* how: `whole`, one namespace with all the room that there can be; `half`, one with half of it; `two`, of such halves. With 1024 keys of 8
   bytes and values of 24 a half is full to its last byte. */
static const struct how {
    uint32_t namespaces, size, value;
} whole = {1, 65536, 32}, half = {1, 32768, 24}, two = {2, 32768, 24}, *how;

static uint8_t directory[64 + 32 * 2048], values[65536], data[PAGE], completion[16], entry[64];

static int poll;          /* the call is kv_used */
static int identify;      /* the call is kv_identify */
static int known, absent; /* the call is kv_known, for the entry's key; and that is below all others */
static uint32_t farm = 1; /* the namespace that it names */

/* whether the entry's command, or the poll, or the page, or the look for a key succeeds */
__attribute__((noinline)) int measured(void) {
    if (poll) return kv_used(farm, directory, sizeof directory, values, sizeof values).number == 0;
    if (identify) return kv_identify(data, sizeof data, farm, directory, sizeof directory, values, sizeof values) == 0;
    if (known) {
        struct kv_look l = kv_known(entry + 8, 8, farm, directory, sizeof directory, values, sizeof values);
        return l.number == 0 && l.known != (uint32_t)absent;
    }
    uint32_t number
        = kv_command(entry, 64, completion, 16, data, sizeof data, directory, sizeof directory, values, sizeof values, 1, 1, 1);
    return number == 0 && (completion[14] | completion[15] << 8) >> 1 == 0;
}

/* key i of n, eight bytes; i rises with the key; a List has none */
static void prepare(int opcode, uint32_t i, uint32_t amount) {
    uint32_t high = __builtin_bswap32(i * 4194301u);
    memset(entry, 0, sizeof entry);
    entry[0] = opcode;
    entry[4] = farm;
    memcpy(entry + 40, &amount, 4);
    if (opcode == KV_LIST) return;
    memcpy(entry + 8, &high, 4);
    memcpy(entry + 12, "tag!", 4);
    entry[44] = 8;
}

/* the store, but for one key of the last namespace: that which a Store is to bring, or none */
static int filled(uint32_t n, uint32_t missing) {
    if (how->namespaces == 1) kv_format(INDEX, 1, how->size, directory, sizeof directory, values, sizeof values);
    else kv_format_two(INDEX, 1, how->size, INDEX, 2, how->size, directory, sizeof directory, values, sizeof values);
    for (farm = 1; farm <= how->namespaces; farm++) {
        for (uint32_t i = 0; i < n; i++) {
            if (i == missing && farm == how->namespaces) continue;
            prepare(KV_STORE, i, how->value);
            memset(data, i, how->value);
            if (!measured()) return 0;
        }
    }
    return 1;
}

int main(int argc, char **argv) {
    if (argc < 4) return 2;
    int opcode = argv[1][0] == 'E' || argv[1][0] == 'K' ? KV_EXIST : argv[1][0] == 'R' ? KV_RETRIEVE : argv[1][0] == 'S' || argv[1][0] == 'A' ? KV_STORE
        : argv[1][0] == 'D' ? KV_DELETE : KV_LIST;
    uint32_t n = atoi(argv[2]);
    how = argv[3][0] == 'w' ? &whole : argv[3][0] == 'h' ? &half : &two;
    if (argc == 4)
        return !(filled(n, argv[1][0] == 'S' ? n / 2 : n) && fwrite(directory, sizeof directory, 1, stdout) && fwrite(values, sizeof values, 1, stdout));
    if (!fread(directory, sizeof directory, 1, stdin) || !fread(values, sizeof values, 1, stdin)) return 1;
    farm = how->namespaces;
    prepare(opcode, n / 2, opcode == KV_LIST ? PAGE : how->value);
    absent = argv[1][0] == 'U' && argv[1][1] == 'n';
    known = argv[1][0] == 'K' || absent;
    poll = argv[1][0] == 'U' && !absent;
    identify = argv[1][0] == 'I';
    if (absent) prepare(KV_EXIST, 0, 0), entry[15]--;
    return argv[4][0] == 'g' && !measured();
}
