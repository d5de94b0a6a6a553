/* Bytes that nobody may touch: what reads or writes past a slice that ends there stops the program. */
#include "fuzz.h"

void *mmap(void *, size_t, int, int, int, long);
int mprotect(void *, size_t, int);

enum { UNREAD = 1 << 18 };

uint8_t *edge(size_t room) {
    uint8_t *p = mmap(0, room + UNREAD, 3, 0x22, -1, 0); /* to be read and written, of no file */
    if (p == (void *)-1 || mprotect(p + room, UNREAD, 0) != 0) differ("bytes that cannot be read", 0, 1);
    return p + room;
}
