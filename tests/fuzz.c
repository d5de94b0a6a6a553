/* Every call of the two libraries compared with the model, in histories of one namespace and of two over all sixteen formats, with damaged
 * memory and damaged pages in between, and in runs on working memories. fuzz [SEED [CALLS]] */
#include "fuzz.h"

unsigned long long strtoull(const char *, char **, int);

static uint64_t wanted = 280000;

static uint32_t most_keys(void) {
    uint32_t most = 0;
    for (uint32_t i = 0; i < held->count; i++) most += model_max_keys(held->spaces[i].index);
    return most;
}

static void history(uint64_t ordinal) {
    full = (ordinal < 16 && ordinal % 5 == 0) || one_in(20); /* each number of keys once, which chance may leave out */
    rubbish(real.directory, model.directory, sizeof real.directory);
    rubbish(real.values, model.values, sizeof real.values);
    intact = 0;
    while (one_in(2)) bad_format();
    first_format(ordinal);
    if (one_in(2)) any_identify(directory_len, values_len);
    uint32_t max = most_keys();
    salt = next();
    letters = full || one_in(4) ? 256 : 1 + below(4);
    pool = full ? 3 * max : 1 + below(one_in(2) ? 12 : 3 * max);
    if (one_in(3)) any_walk();
    spite = full || one_in(3) ? 2 : one_in(2) ? 20 : 150;
    storing = full ? 90 : below(60);
    for (uint32_t i = full ? 4 * max : 20 + below(250); i > 0 && calls < wanted; i--) {
        if (one_in(full ? 100 : 30)) damaged();
        else if (one_in(full ? 2000 : 100)) any_walk();
        else if (one_in(200)) bad_format();
        else if (one_in(80)) any_identify(directory_len, values_len);
        else if (!full && one_in(300)) any_format();
        else if (one_in(80)) any_exist();
        else if (one_in(60)) any_heads();
        else if (one_in(120)) any_memory();
        else if (one_in(40)) {
            rubbish(real.completion, model.completion, sizeof real.completion);
            read_completion(real.completion, one_in(2) ? 16 : below(16 + SPARE));
        } else {
            take_turn();
            any_command();
        }
    }
    if (intact && one_in(4)) any_again();
    if (intact && !full) any_orders();
    if (intact) any_walk();
    if (intact && one_in(2)) any_identify(directory_len, values_len);
    if (!full && one_in(4)) any_farms();
}

int main(int argc, char **argv) {
    if (argc > 1) seed = strtoull(argv[1], 0, 0);
    if (argc > 2) wanted = strtoull(argv[2], 0, 0);
    state = seed;
    for (uint64_t i = 0; calls < wanted; i++) history(i);
    int missing = report_calls();
    missing += report_formats();
    missing += report_commands();
    missing += report_damage();
    missing += report_identify();
    missing += report_known();
    missing += report_heads();
    missing += report_memory();
    missing += report_again();
    missing += report_farms();
    missing += report_orders();
    missing += report_walks();
    if (missing > 0) printf("FAILED: %d of these did not occur\n", missing);
    printf("compared with the model: %llu calls, 0 mismatches\n", (unsigned long long)calls);
    return missing != 0;
}
