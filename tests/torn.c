/* For the tally example, in the place of kv_read_page: the third page is read with a byte too few for its last entry, as one that
 * was cut on its way. */
#include "kv.h"

struct kv_page_key torn_read_page(const uint8_t *page, size_t page_len, uint32_t ordinal);

struct kv_page_key torn_read_page(const uint8_t *page, size_t page_len, uint32_t ordinal) {
    static int pages;
    pages += ordinal == 0;
    return kv_read_page(page, pages == 3 ? 35 : page_len, ordinal);
}
