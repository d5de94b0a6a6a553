/* Formattings: those that a history begins with, those in its midst, and those that are to be refused. */
#include "fuzz.h"

enum { ROOM = 65536 };

/* faults of one namespace, those of the second SECOND bits higher; then those of the formatting as a whole */
enum { INDEX = 1, ID = 2, SIZE = 4, SECOND = 5, DIRECTORY = 8, VALUES = 16, EQUAL = 256, SUM = 512, JOINT = DIRECTORY | VALUES | EQUAL | SUM };

/* carried out, of one namespace and of two; refused: for two sizes that are too large only together, for two ids that are equal, and for
 * slices that are too short only for both */
static uint64_t done[2], sums, equals, shorts;

static uint32_t some_id(void) {
    static const uint32_t ids[4] = {1, 2, 0xfffffffe, 0x80000000};
    return one_in(2) ? ids[below(4)] : 1 + below(0xfffffffe);
}

/* now and then one bit away from the first */
static uint32_t second_id(uint32_t first) {
    uint32_t id;
    do id = one_in(3) ? first ^ 1u << below(32) : some_id();
    while (id == first || id == 0 || id == 0xffffffff);
    return id;
}

/* the bytes needed */
static size_t directory_of(const struct asked *a, uint32_t n) {
    return 64 + 32 * (model_max_keys(a[0].index) + (n == 2 ? model_max_keys(a[1].index) : 0));
}

static size_t values_of(const struct asked *a, uint32_t n) { return a[0].size + (n == 2 ? a[1].size : 0); }

static uint32_t counted(const struct asked *a, uint32_t n, size_t dlen, size_t vlen) {
    uint32_t got = format(a, n, dlen, vlen);
    if (got == 0) done[n - 1]++;
    if (n == 1) return got;
    int each = a[0].size <= ROOM && a[1].size <= ROOM;
    sums += got == 5 && each && values_of(a, 2) > ROOM && a[0].size > 0 && a[1].size > 0;
    equals += got == 19;
    shorts += got == 6 && dlen >= directory_of(a, 1) && dlen >= directory_of(a + 1, 1) && vlen >= a[0].size && vlen >= a[1].size;
    return got;
}

void first_format(uint64_t ordinal) {
    static const uint32_t sizes[5] = {20, 200, 1000, 5000, ROOM};
    uint32_t n = 1 + below(2), left = ROOM;
    struct asked a[2];
    for (uint32_t i = 0; i < n; i++) {
        a[i].index = i == 0 ? ordinal % 16 : one_in(2) ? a[0].index : below(16);
        a[i].id = i == 0 ? some_id() : second_id(a[0].id);
        a[i].size = 1 + below(sizes[below(5)]);
        if (one_in(40) || a[i].size > left) a[i].size = left;
        if (full) a[i].size = model_max_keys(a[i].index) * (model_key_max(a[i].index) + 2 + below(8));
        if (n == 2 && a[i].size == ROOM) a[i].size = ROOM - 1 - below(100);
        left -= a[i].size;
    }
    size_t dlen = directory_of(a, n), vlen = values_of(a, n);
    if (one_in(2)) dlen += below(sizeof real.directory - dlen + 1);
    if (one_in(2)) vlen += one_in(2) ? below(SPARE) : below(sizeof real.values - vlen + 1);
    number("formatting", counted(a, n, dlen, vlen), 0);
}

void any_format(void) {
    uint32_t first = ours()->id;
    struct asked a[2] = {{below(16), first, 1 + below(values_len)}, {below(16), second_id(first), 1 + below(values_len)}};
    counted(a, 1 + below(2), directory_len, values_len);
}

static uint64_t bad_size(void) {
    uint64_t sizes[7] = {0, ROOM + 1, 0x100000000, 0x100000001, next() | 0x20000, 0xffffffffffffffff, -(uint64_t)(1 + below(ROOM))};
    return sizes[below(7)];
}

/* one fault or several of those that a single namespace can have */
static void spoil(struct asked *a, uint32_t faults) {
    if (faults & INDEX) a->index = one_in(2) ? 16 + below(3) : (uint32_t)next() | 16;
    if (faults & ID) a->id = one_in(2) ? 0 : 0xffffffff;
    if (faults & SIZE) a->size = bad_size();
}

static size_t cut(size_t n) { return one_in(2) ? n - 1 : below(n); }

void bad_format(void) {
    uint32_t n = 1 + below(2), id = 1 + below(1000), half = ROOM / n, kinds = n == 1 ? 5 : 10;
    struct asked a[2] = {{below(16), id, 1 + below(half)}, {below(16), second_id(id), 1 + below(half)}};
    uint32_t faults = one_in(2) ? 1u << below(kinds) : 1 + below((1u << kinds) - 1);
    if (faults & JOINT && one_in(2)) faults &= JOINT;
    size_t dlen = directory_of(a, n), vlen = values_of(a, n);
    if (faults & DIRECTORY) dlen = cut(dlen);
    if (faults & VALUES) vlen = cut(vlen);
    if (faults & EQUAL) a[1].id = id;
    if (faults & SUM) a[1].size = ROOM + 1 - a[0].size + (one_in(2) ? 0 : below(a[0].size));
    if (faults & SUM && !(faults & VALUES)) vlen = sizeof real.values;
    spoil(a, faults);
    spoil(a + 1, faults >> SECOND);
    if (counted(a, n, dlen, vlen) == 0) differ("formatting to refuse", 0, 1);
}

int report_formats(void) {
    printf("formatted: one namespace %llu, two %llu; refused for the sum of the sizes %llu, for equal ids %llu, for what both need %llu\n",
           (unsigned long long)done[0], (unsigned long long)done[1], (unsigned long long)sums, (unsigned long long)equals,
           (unsigned long long)shorts);
    return (done[0] == 0) + (done[1] == 0) + (sums == 0) + (equals == 0) + (shorts == 0);
}
