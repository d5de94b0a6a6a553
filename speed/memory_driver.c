/* One call on working memory, for counting its instructions: `memory_driver CALL N give` reads, writes or fills n bytes in the middle of 65,536,
   once, and `memory_driver CALL N skip` does all but that. As there is no store to write first, `memory_driver CALL N` does nothing. */
#include "kv.h"

int atoi(const char *);
void *memcpy(void *, const void *, size_t);

enum { ID = 9, MEMORY = 65536, MOST = 4096 };

static uint8_t memory[MEMORY], data[MOST], completion[16], entry[64];
static char call;

/* whether it succeeds */
__attribute__((noinline)) int measured(void) {
    uint32_t number
        = call == 'R' ? kv_memory_read(entry, 64, completion, 16, data, sizeof data, memory, sizeof memory, ID, 1, 1, 1)
        : call == 'W' ? kv_memory_write(entry, 64, completion, 16, data, sizeof data, memory, sizeof memory, ID, 1, 1, 1)
                      : kv_memory_fill(entry, 64, completion, 16, 0x04030201, memory, sizeof memory, ID, 1, 1, 1);
    return number == 0 && (completion[14] | completion[15] << 8) >> 1 == 0;
}

int main(int argc, char **argv) {
    if (argc < 4) return argc < 3;
    uint32_t len = atoi(argv[2]);
    uint64_t start = (MEMORY - MOST) / 2;
    entry[4] = ID;
    memcpy(entry + 40, &start, 8);
    memcpy(entry + 48, &len, 4);
    call = argv[1][0];
    return argv[3][0] == 'g' && !measured();
}
