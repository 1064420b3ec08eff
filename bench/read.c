/* How long reading takes: grammar books of 32, 64 and 127 rules, read and asked for a bound on listings, table books and scan files of 4, 16
   and 64 KiB, scan files with the house letters and through a letters book that is the same, best of many runs.
   sh bench/run.sh read */
#include "bench.h"

static uint8_t book[65537], items[BURAIGUE_ITEMS], tokens[BURAIGUE_TOKENS];
static uint64_t most, unbounded;

/* rules of 15 symbols with a cut between any two */
static size_t grammar_book(int rules) {
    size_t at = sprintf((char *)book, "G,63,1,%d,64\n", rules);
    for (int i = 0; i < rules; i++) {
        at += sprintf((char *)book + at, "R,64,^");
        for (int k = 0; k < 15; k++) at += sprintf((char *)book + at, "%s,%d", k ? ",/" : "", 10 + (i + k) % 50);
        book[at++] = '\n';
    }
    return at;
}

static const char grammar[] = "G,63,1,1,64\nR,64,^,1,1,1,1,1,1,1,1,1,1,1,1,1,1,1\n";

/* kernel lines with every code; the last line is refused, so that the book is read whole and not checked */
static size_t table_book(size_t size) {
    size_t at = sprintf((char *)book, "T,255,1\nE,1,64\n");
    for (int i = 0; at + 224 < size; i++) {
        at += sprintf((char *)book + at, "K,%d,1,%d", 1 + i / 2, i % 2);
        for (int c = 0; c < 64; c++) at += sprintf((char *)book + at, ",%d", c);
        book[at++] = '\n';
    }
    return at + sprintf((char *)book + at, "S,1,1,256\n");
}

static size_t scan_file(size_t size) {
    size_t at = 0;
    for (int i = 0; at + 24 < size; i++) at += sprintf((char *)book + at, "%d,%c,W%012d\n", i, "DGPETF"[i % 6], i);
    return at;
}

static const char own[] = "L,0,0,0,1,5,7,2,0,0,0,0,0,0,0,0,3,0,0,0,6,0,0,0,0,0,0\n";

enum what { GRAMMAR, BOUND, TABLE, SCANS, LETTERED };

static uint64_t read_once(enum what what, size_t n, uint64_t *place) {
    if (what == GRAMMAR) return buraigue_read_grammar(book, n, items, sizeof items, place);
    if (what == BOUND) return buraigue_bound_listing(book, n, 65535, place, &most, &unbounded);
    if (what == TABLE) return buraigue_check_tables((const uint8_t *)grammar, sizeof grammar - 1, book, n, place);
    if (what == SCANS) return buraigue_read_scans(book, n, tokens, sizeof tokens, place);
    return buraigue_read_lettered((const uint8_t *)own, sizeof own - 1, 63, book, n, tokens, sizeof tokens, place);
}

static void measure(enum what what, size_t n) {
    static const char *names[] = {"grammar", "bound", "table", "scans", "lettered"};
    double best = 1e9;
    uint64_t place = 0, number = 99;
    for (int i = 0; i < 400; i++) {
        double t = now();
        number = read_once(what, n, &place);
        t = now() - t;
        if (t < best) best = t;
    }
    printf("%-8s %6zu bytes  reply %llu,%llu  %8.1f us  %6.2f ns a byte\n", names[what], n, (unsigned long long)number, (unsigned long long)place, best,
           best * 1e3 / n);
}

int main(void) {
    int rules[] = {32, 64, 127};
    size_t sizes[] = {4096, 16384, 65536};
    for (int i = 0; i < 3; i++) measure(GRAMMAR, grammar_book(rules[i]));
    for (int i = 0; i < 3; i++) measure(BOUND, grammar_book(rules[i]));
    for (int i = 0; i < 3; i++) measure(TABLE, table_book(sizes[i]));
    for (int i = 0; i < 3; i++) measure(SCANS, scan_file(sizes[i]));
    for (int i = 0; i < 3; i++) measure(LETTERED, scan_file(sizes[i]));
    return 0;
}
