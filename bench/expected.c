/* How long a list of what could have come takes, beside the check of the books alone: a bag of 20 scans with the hospital's grammar, and 65,535 tokens of
   a grammar with 63 terminals, after which every code fits, so that 64 trials walk all of them. Best of many runs.
   sh bench/run.sh expected */
#include "bench.h"
#include <string.h>

static uint8_t grammar[65537], tables[65537], tokens[65535], stack[1 << 20], listing[1 << 20], codes[BURAIGUE_CODES];

static void measure(const char *what, size_t g, size_t t, size_t n, int runs) {
    double check = 1e9, session = 1e9, list = 1e9;
    uint64_t number = 99, place = 0, count = 0, rules = 0, units = 0;
    for (int i = 0; i < runs; i++) {
        double a = now();
        buraigue_check_tables(grammar, g, tables, t, &place);
        double b = now();
        buraigue_run_session(grammar, g, tables, t, tokens, n, stack, sizeof stack, listing, sizeof listing, &place, &rules, &units);
        double c = now();
        number = buraigue_list_expected(grammar, g, tables, t, tokens, n, stack, sizeof stack, listing, sizeof listing, codes, sizeof codes, &place, &count);
        double d = now();
        if (b - a < check) check = b - a;
        if (c - b < session) session = c - b;
        if (d - c < list) list = d - c;
    }
    printf("%-15s %zu tokens  reply %llu,%llu  %llu codes  check %.2f ms  session %.2f ms  list %.2f ms\n", what, n, (unsigned long long)number,
           (unsigned long long)place, (unsigned long long)count, check / 1000, session / 1000, list / 1000);
}

int main(void) {
    size_t g = load("examples/hospital.grammar", grammar), t = load("examples/hospital.tables", tables);
    /* a day's opening and an intake, then a scan that does not fit */
    static const uint8_t bag[20] = {8, 10, 11, 13, 1, 4, 2, 3, 5, 6, 22, 6, 21, 19, 7, 1, 2, 3, 12, 9};
    memcpy(tokens, bag, sizeof bag);
    measure("hospital", g, t, sizeof bag, 200);
    g = (size_t)sprintf((char *)grammar, "G,63,2,65,64\nR,64,^\nR,64,64,^,65\n");
    for (int a = 1; a <= 63; a++) g += (size_t)sprintf((char *)grammar + g, "R,65,%d,^\n", a);
    uint64_t place, size;
    buraigue_build_tables(grammar, g, tables, sizeof tables, &place, &size);
    for (size_t i = 0; i < sizeof tokens; i++) tokens[i] = (uint8_t)(i % 63 + 1);
    measure("63 terminals", g, size, sizeof tokens, 20);
    return 0;
}
