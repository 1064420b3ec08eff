/* How long building a table book takes as a call, best of many runs: each grammar book that the arguments name. In milliseconds, a line each.
   bench/build.py runs it. */
#include "bench.h"

static uint8_t grammar[65537], book[BURAIGUE_BOOK];

int main(int argc, char **argv) {
    for (int i = 1; i < argc; i++) {
        size_t n = load(argv[i], grammar);
        double best = 1e9;
        uint64_t place, size;
        for (int k = 0; k < 400; k++) {
            double t = now();
            buraigue_build_tables(grammar, n, book, sizeof book, &place, &size);
            t = now() - t;
            if (t < best) best = t;
        }
        printf("%.3f\n", best / 1e3);
    }
    return 0;
}
