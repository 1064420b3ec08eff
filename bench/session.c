/* How long a session takes, beside the parser that bison generates for the same grammar: 65,535 tokens of D and a long day of the hospital's grammar,
   where the same comes over and over, and test loads of both; best of many runs. The walk alone is the whole call less the same call with no token:
   that one reads and checks both books.
   sh bench/run.sh session */
#include "bench.h"
#include "bison.h"
#include <string.h>

int d_session(struct session *s);
int hospital_session(struct session *s);

static uint8_t grammar[65537], tables[65537], tokens[65535], stack[65536], listing[1 << 18], other[1 << 18];

/* works of a day: an intake, an issue, a return, a discard, a temperature, a pooling, a transfer, a control, a remark, a quarantine */
static const uint8_t works[] = {11, 13, 1, 4, 2, 3, 5, 6, 22, 6, 21, 19, 7, 1, 2, 3, 12, 20, 10, 15, 14, 1, 3, 26, 27, 19, 20, 10, 16, 1, 13, 18, 10, 17, 1, 10, 10,
                                18, 10, 28, 1, 1, 1, 29, 1, 5, 30, 10, 11, 13, 1, 1, 12, 31, 18, 10, 32, 19, 6, 7, 6, 20, 10, 23, 25, 25, 25, 24, 33, 1, 1, 34, 20, 10};
/* they come round and round, between the day's opening and its end */
static size_t day(void) {
    size_t n = 2;
    tokens[0] = 8, tokens[1] = 10;
    for (; n + sizeof works + 2 <= sizeof tokens; n += sizeof works) memcpy(tokens + n, works, sizeof works);
    tokens[n++] = 9;
    tokens[n++] = 10;
    return n;
}

/* a test load: a month of works in random order */
static size_t month(size_t g) {
    uint64_t place, count = 0, rules;
    buraigue_make_load(grammar, g, 5, 15, tokens, sizeof tokens, listing, sizeof listing, &place, &count, &rules);
    return count;
}

/* bags of 1, 2 and 3, all alike */
static size_t bags(void) {
    size_t n = 0;
    for (; n + 3 <= sizeof tokens; n += 3) tokens[n] = 1, tokens[n + 1] = 2, tokens[n + 2] = 3;
    return n;
}

/* the test loads of all seeds one behind the other, while there is room: bags in a row are a session of D, so sessions in a row are one */
static size_t mixed_bags(size_t g) {
    uint64_t place, count, rules;
    size_t n = 0;
    for (uint32_t seed = 0; !buraigue_make_load(grammar, g, seed, 15, tokens + n, sizeof tokens - n, listing, 1024, &place, &count, &rules); seed++) n += count;
    return n;
}

static void measure(const char *what, size_t g, size_t t, size_t n, int (*parse)(struct session *)) {
    double whole = 1e9, empty = 1e9, bison = 1e9;
    uint64_t number = 99, place = 0, rules = 0, units = 0;
    struct session s = {tokens, n, 0, 0, 0, other};
    int failed = 1;
    for (int i = 0; i < 200; i++) {
        double a = now();
        buraigue_run_session(grammar, g, tables, t, tokens, 0, stack, sizeof stack, listing, sizeof listing, &place, &rules, &units);
        double b = now();
        number = buraigue_run_session(grammar, g, tables, t, tokens, n, stack, sizeof stack, listing, sizeof listing, &place, &rules, &units);
        double c = now();
        failed = parse(&s);
        double d = now();
        if (b - a < empty) empty = b - a;
        if (c - b < whole) whole = c - b;
        if (d - c < bison) bison = d - c;
    }
    double walk = whole - empty;
    printf("%-15s %zu tokens  reply %llu,%llu,%llu,%llu  call %.0f us, without tokens %.0f us  walk %.1f M tokens/s  bison %s %lu,%lu  %.1f M tokens/s  ratio %.2f\n", what, n,
           (unsigned long long)number, (unsigned long long)place, (unsigned long long)rules, (unsigned long long)units, whole, empty, n / walk,
           failed ? "failed" : "whole", s.rules, s.units, n / bison, bison / walk);
}

int main(void) {
    size_t g = load("examples/d.grammar", grammar), t = load("examples/d.tables", tables);
    measure("d", g, t, bags(), d_session);
    measure("d, mixed", g, t, mixed_bags(g), d_session);
    g = load("examples/hospital.grammar", grammar), t = load("examples/hospital.tables", tables);
    measure("hospital", g, t, day(), hospital_session);
    measure("hospital, mixed", g, t, month(g), hospital_session);
    return 0;
}
