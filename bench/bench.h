/* What the benchmarks share. */
#include "../include/buraigue.h"
#include <stdio.h>
#include <time.h>

/* microseconds */
static inline double now(void) {
    struct timespec t;
    clock_gettime(CLOCK_MONOTONIC, &t);
    return t.tv_sec * 1e6 + t.tv_nsec / 1e3;
}

/* the first 65,537 bytes of a file; 0 where there is none */
static inline size_t load(const char *path, uint8_t *to) {
    FILE *f = fopen(path, "rb");
    if (!f) return 0;
    size_t n = fread(to, 1, 65537, f);
    fclose(f);
    return n;
}
