/* Damaged pages for the host's reader. */
#include "fuzz.h"

void *memmove(void *, const void *, size_t);

void pages(uint32_t amount) {
    static uint8_t page[DATA + SPARE];
    uint32_t len = amount < DATA ? amount : DATA, at[1025], n = 0, end = 4;
    memcpy(page, real.data, len);
    uint32_t count = get16(page);
    for (; n < count && n < 1024; n++) {
        at[n] = end;
        end += (get16(page + end) + 5) / 4 * 4;
    }
    read_page(page, len, below(count + 2));
    for (int damage = below(3) + 1; damage > 0; damage--) {
        uint32_t i = n > 0 ? below(n) : 0, e = n > 0 ? at[i] : 0, key_len = n > 0 ? get16(page + e) : 0;
        uint32_t pad = (6 - key_len % 4) % 4;
        switch (below(10)) {
        case 0: page[below(len)] ^= 1 << below(8); break;
        case 1: page[below(end < len ? end : len)] = next(); break;
        case 2: page[below(4)] += one_in(2) ? 1 : 255; break;
        case 3: len = one_in(4) ? below(6) : below(end + 2); break;
        case 4: page[0] = below(n + 1), page[1] = 0; break;
        case 5: if (n > 0) page[e] = one_in(2) ? 0 : 15 + below(4); break;
        case 6: if (n > 0) page[e + 1] = 1; break;
        case 7: if (n > 0 && pad > 0 && key_len <= 16) page[e + 2 + key_len + below(pad)] = 1 << below(8); break;
        case 8: if (n > 1 && i > 0) memmove(page + e, page + at[i - 1], at[i] - at[i - 1]); break; /* the same key twice */
        default: if (n > 0) page[e + 2 + below(4)] = next();
        }
        if (len > amount || len > DATA) len = amount < DATA ? amount : DATA;
        read_page(page, len, one_in(8) ? 0xffffffff - below(2) : below(n + 2));
        if (len == 0) return;
    }
}
