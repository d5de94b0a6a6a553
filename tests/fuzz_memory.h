/* What the two files of the working memory share: the slices that are lent, and what is asked with them. */
#ifndef FUZZ_MEMORY_H
#define FUZZ_MEMORY_H

#include "fuzz.h"

enum { LARGEST = 65536, REGION = 2 << 16 };
enum { READ, WRITE, FILL, KINDS };
enum { ENTRY, COMPLETION, BUFFER, MEMORY, SLICES };
enum { ENTRY_LENGTH, COMPLETION_LENGTH, MEMORY_LENGTH, OTHER_ID, ODD, PAST, SHORT, CAUSES }; /* faults, in the order in which they count */

/* Of a slice `len` bytes are lent. `have` bytes are there, fewer where no more may be touched and more where a part is lent, and `gap` bytes
 * behind them; then comes the end, from which on no byte of the device's can be read. The model's is its twin. */
struct slice {
    uint8_t *end, *twin;
    size_t len, have, gap;
};
extern struct slice slices[SLICES];

extern struct ask {
    uint32_t kind, id, named, length, fill; /* `named` is the id in the entry */
    uint64_t start;
    uint16_t head, queue, phase;
} ask;

uint8_t *from(uint32_t slice, uint8_t *end); /* where a slice begins, on the side that has this end */
void as_lent(void);                          /* no byte of the memory was written yet */
void give(void);                             /* the call asked for, on both sides, compared */

#endif
