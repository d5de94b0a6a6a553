/* Values stored again in a namespace that is full to its last byte: shorter, equal and longer ones. */
#include "fuzz.h"

/* Stores over a held key that were carried out, by what their values were beside the old one's length, those that had no room, and
 * those carried out while every slot was taken */
static uint64_t shorter, equal, longer, refused, crowded;

static uint32_t left(void) { return ours()->size - model_used(ours()); }

static uint32_t least(uint32_t a, uint32_t b) { return a < b ? a : b; }

static uint32_t store(const uint8_t *key, uint32_t len, uint32_t amount) {
    rubbish(real.data, model.data, amount);
    number("again: built", build(64, KV_STORE, ours()->id, key, len, amount, 0), 0);
    return command(64, 16, amount, directory_len, values_len);
}

/* under the key of pair i, which the Store moves */
static uint32_t over(uint32_t i, uint32_t amount) {
    struct model_pair p = ours()->pairs[i];
    return store(p.key, p.key_len, amount);
}

/* new keys, or longer values for those that are held, until no byte is left */
static void fill(void) {
    while (left() > 0) {
        uint32_t value_max = model_value_max(ours()->index), len = least(left(), model_key_max(ours()->index)), i;
        uint8_t key[16];
        rubbish(key, key + 8, 8);
        if (ours()->count < model_max_keys(ours()->index) && (ours()->count == 0 || !one_in(3))) {
            store(key, len, least(left() - len, value_max));
        } else {
            i = below(ours()->count);
            number("again: grown", over(i, least(ours()->pairs[i].value_len + left(), value_max)), 0);
        }
    }
}

void any_again(void) {
    take_turn();
    fill();
    for (uint32_t n = 4 + below(8); n > 0; n--) {
        uint32_t i = below(ours()->count), old = ours()->pairs[i].value_len, value_max = model_value_max(ours()->index);
        number("again: used room", model_used(ours()), ours()->size);
        number("again: equal", over(i, old), 0);
        equal++;
        crowded += ours()->count == model_max_keys(ours()->index);
        if (old < value_max) {
            number("again: longer", over(i, old + 1 + below(value_max - old)), 0x81);
            refused++;
        }
        if (old > 0) {
            number("again: shorter", over(i, below(old)), 0);
            shorter++;
            number("again: as long as before", over(i, old), 0);
            longer++;
        }
    }
}

int report_again(void) {
    printf("stored again in a full namespace: 00h shorter %llu, equal %llu, longer by what was left %llu; 81h longer %llu; with every slot taken %llu\n",
           (unsigned long long)shorter, (unsigned long long)equal, (unsigned long long)longer, (unsigned long long)refused,
           (unsigned long long)crowded);
    return (shorter == 0) + (equal == 0) + (longer == 0) + (refused == 0) + (crowded == 0);
}
