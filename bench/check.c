/* How long checking a table book takes: each pair of a grammar book and a table book that the arguments name, best of many runs.
   sh bench/run.sh check */
#include "bench.h"

static uint8_t grammar[65537], book[65537];

int main(int argc, char **argv) {
    for (int i = 1; i + 1 < argc; i += 2) {
        size_t n = load(argv[i], grammar), m = load(argv[i + 1], book);
        double best = 1e9, spent = 0;
        uint64_t place = 0, number = 99;
        for (int k = 0; k < 400 && spent < 2e6; k++) {
            double t = now();
            number = buraigue_check_tables(grammar, n, book, m, &place);
            t = now() - t;
            spent += t;
            if (t < best) best = t;
        }
        printf("%-40s %6zu bytes  reply %llu,%llu  %9.1f us\n", argv[i + 1], m, (unsigned long long)number, (unsigned long long)place, best);
    }
    return 0;
}
