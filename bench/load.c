/* How long a test load of the hospital's grammar takes at depth 15: long ones, with a month of works, and short ones, of which reading the book is the
   most; best of many runs. Each load is walked as well, and must come back whole with its listing.
   sh bench/run.sh load */
#include "bench.h"
#include <string.h>

static uint8_t grammar[65537], tables[65537], items[BURAIGUE_ITEMS], tokens[BURAIGUE_LOAD], listing[1 << 17], stack[1 << 17], walked[1 << 17];

static int walks(size_t g, size_t t, size_t n, uint64_t rules) {
    uint64_t place, listed, units;
    uint64_t number = buraigue_run_session(grammar, g, tables, t, tokens, n, stack, sizeof stack, walked, sizeof walked, &place, &listed, &units);
    return number == BURAIGUE_ACCEPTED && place == n && listed == rules && !memcmp(walked, listing, rules);
}

/* lends so many tokens and rules */
static void measure(size_t g, size_t t, uint32_t seed, size_t n, size_t k) {
    double best = 1e9, read = 1e9;
    uint64_t number = 99, place = 0, count = 0, rules = 0;
    for (int i = 0; i < 200; i++) {
        double a = now();
        buraigue_read_grammar(grammar, g, items, sizeof items, &place);
        double b = now();
        number = buraigue_make_load(grammar, g, seed, 15, tokens, n, listing, k, &place, &count, &rules);
        double c = now();
        if (b - a < read) read = b - a;
        if (c - b < best) best = c - b;
    }
    printf("seed %-4u reply %llu,%llu,%llu,%llu  call %.1f us, reading the book %.1f us  %.1f M tokens/s  %s\n", seed, (unsigned long long)number,
           (unsigned long long)place, (unsigned long long)count, (unsigned long long)rules, best, read, count / best,
           walks(g, t, count, rules) ? "walked whole" : "NOT WALKED");
}

/* every seed once, whatever its load: how many are long, and how fast they come in all */
static void make_many(size_t g, size_t t, uint32_t seeds) {
    uint64_t place, count, rules, all = 0, most = 0;
    uint32_t wrong = 0, long_ones = 0;
    double time = 0;
    for (uint32_t seed = 0; seed < seeds; seed++) {
        double a = now();
        buraigue_make_load(grammar, g, seed, 15, tokens, sizeof tokens, listing, sizeof listing, &place, &count, &rules);
        time += now() - a;
        wrong += !walks(g, t, count, rules);
        long_ones += count >= 60000;
        all += count;
        if (count > most) most = count;
    }
    printf("%u seeds: %u loads of 60,000 tokens and more, up to %llu; %llu tokens in all, %.1f M tokens/s, %u not walked whole\n", seeds, long_ones,
           (unsigned long long)most, (unsigned long long)all, all / time, wrong);
}

int main(void) {
    size_t g = load("examples/hospital.grammar", grammar), t = load("examples/hospital.tables", tables);
    measure(g, t, 1, sizeof tokens, sizeof listing);
    measure(g, t, 3, sizeof tokens, sizeof listing);
    measure(g, t, 4, sizeof tokens, sizeof listing);
    measure(g, t, 5, sizeof tokens, sizeof listing);
    measure(g, t, 9, sizeof tokens, sizeof listing);
    measure(g, t, 2, 256, 256);
    measure(g, t, 6, 256, 256);
    make_many(g, t, 1000);
    return 0;
}
