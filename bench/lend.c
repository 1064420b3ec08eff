/* Lends slices and figures of 7s to every call, on input that is accepted and on input that is refused, and looks at what comes back: the
   result and zeros after it, or zeros alone, and nothing past the slice. One line a call.
   sh bench/run.sh lend */
#include "bench.h"
#include <string.h>

enum { PAST = 64, FEW = 3 };

struct lent {
    uint8_t bytes[BURAIGUE_BOOK + PAST];
    size_t length;
};

static struct lent one, other, third;
static uint64_t place, size, rules, units, count;
static uint8_t grammar[65537], tables[65537], ambiguous[65537];
static size_t g, t, a;
static unsigned cases, wrong, all, all_wrong;

static uint8_t *lend(struct lent *s, size_t length) {
    memset(s->bytes, 7, sizeof s->bytes);
    s->length = length;
    place = size = rules = units = count = 7;
    return s->bytes;
}

/* these bytes, then zeros, and 7s past the slice */
static int holds(const struct lent *s, const void *bytes, size_t n) {
    if (n > s->length || memcmp(s->bytes, bytes, n)) return 0;
    size_t i = n;
    while (i < s->length && s->bytes[i] == 0) i++;
    if (i < s->length) return 0;
    while (i < sizeof s->bytes && s->bytes[i] == 7) i++;
    return i == sizeof s->bytes;
}

static void expect(uint64_t number, enum buraigue_reply reply, uint64_t at, int rest) {
    cases++;
    if (number == reply && place == at && rest) return;
    wrong++;
    printf("case %u: reply %llu,%llu where %d,%llu is due, or what was lent is wrong\n", cases, (unsigned long long)number,
           (unsigned long long)place, reply, (unsigned long long)at);
}

static void done(const char *call) {
    printf("%-22s %u cases, %u wrong\n", call, cases, wrong);
    all += cases;
    all_wrong += wrong;
    cases = wrong = 0;
}

/* of each rule of D: left side, length, recognition point, unit flag; symbols; a 1 for the first symbol of each group */
static const uint8_t d[5][10] = {{64}, {64, 2, 1, 0, 64, 65, 0, 0, 1}, {65, 3, 0, 1, 66, 2, 3, 1, 1, 1}, {66, 1, 1, 0, 1}, {66, 2, 2, 0, 66, 4}};
static uint8_t rows[6 * 64];

static void read_grammar(size_t length, size_t n, enum buraigue_reply reply, uint64_t at) {
    uint64_t number = buraigue_read_grammar(grammar, length, lend(&one, n), n, &place);
    expect(number, reply, at, holds(&one, rows, reply ? 0 : sizeof rows));
}

static void read_grammars(void) {
    for (int i = 0; i < 5; i++) {
        memcpy(rows + 64 * (i + 1), d[i], 4);
        memcpy(rows + 64 * (i + 1) + 16, d[i] + 4, 3);
        memcpy(rows + 64 * (i + 1) + 32, d[i] + 7, 3);
    }
    read_grammar(g, BURAIGUE_ITEMS, BURAIGUE_ACCEPTED, 0);
    read_grammar(g, BURAIGUE_ITEMS + FEW, BURAIGUE_ACCEPTED, 0);
    read_grammar(g, BURAIGUE_ITEMS - 1, BURAIGUE_BUFFER_TOO_SMALL, 0);
    read_grammar(g, FEW, BURAIGUE_BUFFER_TOO_SMALL, 0);
    read_grammar(g - 1, BURAIGUE_ITEMS, BURAIGUE_MALFORMED, g - 12);
    done("buraigue_read_grammar");
}

static const uint8_t scans[] = "1,D,W0001\n1,D,W0001\n2,G,O\n3,P,E4532\n", tokens[] = {1, 4, 2, 3}, listing[] = {1, 2, 3, 4, 5};
enum { SCANS = sizeof scans - 1 };

static void read_scan(size_t length, size_t n, enum buraigue_reply reply, uint64_t at) {
    uint64_t number = buraigue_read_scans(scans, length, lend(&one, n), n, &place);
    expect(number, reply, at, holds(&one, tokens, reply ? 0 : sizeof tokens));
}

static void read_scans(void) {
    read_scan(SCANS, sizeof tokens, BURAIGUE_ACCEPTED, 4);
    read_scan(SCANS, BURAIGUE_TOKENS, BURAIGUE_ACCEPTED, 4);
    read_scan(SCANS, FEW, BURAIGUE_BUFFER_TOO_SMALL, 0);
    read_scan(SCANS - 1, BURAIGUE_TOKENS, BURAIGUE_MALFORMED, 26);
    done("buraigue_read_scans");
}

/* a bank whose donation number is X, and whose product is A: the scans of the same bag */
static const uint8_t own[] = "L,3,0,0,0,0,0,2,0,0,0,0,0,0,0,0,0,0,0,0,0,0,0,0,1,0,0\n", fours[] = "L,0,0,0,4,0,0,2,0,0,0,0,0,0,0,0,3,0,0,0,0,0,0,0,1,0,0\n",
                     own_codes[] = {3, 0, 0, 0, 0, 0, 2, 0, 0, 0, 0, 0, 0, 0, 0, 0, 0, 0, 0, 0, 0, 0, 0, 1, 0, 0},
                     own_scans[] = "1,X,W0001\n1,X,W0001\n2,G,O\n3,A,E4532\n";
enum { OWN = sizeof own - 1, FOURS = sizeof fours - 1 };

static void read_letter(const uint8_t *book, size_t length, size_t terminals, size_t n, enum buraigue_reply reply, uint64_t at) {
    uint64_t number = buraigue_read_letters(book, length, terminals, lend(&one, n), n, &place);
    expect(number, reply, at, holds(&one, own_codes, reply ? 0 : sizeof own_codes));
}

static void read_letters(void) {
    read_letter(own, OWN, 4, BURAIGUE_LETTERS, BURAIGUE_ACCEPTED, 0);
    read_letter(own, OWN, 3, BURAIGUE_LETTERS + FEW, BURAIGUE_ACCEPTED, 0);
    read_letter(own, OWN, 2, BURAIGUE_LETTERS, BURAIGUE_UNDECLARED, 0);
    read_letter(own, OWN, 0, BURAIGUE_LETTERS, BURAIGUE_LIMIT_EXCEEDED, 0);
    read_letter(own, OWN, SIZE_MAX, BURAIGUE_LETTERS, BURAIGUE_LIMIT_EXCEEDED, 0);
    read_letter(own, OWN, 4, BURAIGUE_LETTERS - 1, BURAIGUE_BUFFER_TOO_SMALL, 0);
    read_letter(own, OWN - 1, 4, BURAIGUE_LETTERS, BURAIGUE_MALFORMED, 0);
    read_letter(own, 0, 4, BURAIGUE_LETTERS, BURAIGUE_MALFORMED, 0);
    read_letter(fours, FOURS, 4, BURAIGUE_LETTERS, BURAIGUE_AMBIGUOUS_LETTER, 3);
    done("buraigue_read_letters");
}

static void read_own(const uint8_t *book, size_t length, size_t size, size_t n, enum buraigue_reply reply, uint64_t at) {
    uint64_t number = buraigue_read_lettered(book, length, 4, own_scans, size, lend(&one, n), n, &place);
    expect(number, reply, at, holds(&one, tokens, reply ? 0 : sizeof tokens));
}

static void read_lettered(void) {
    read_own(own, OWN, SCANS, sizeof tokens, BURAIGUE_ACCEPTED, 4);
    read_own(own, OWN, SCANS, BURAIGUE_TOKENS, BURAIGUE_ACCEPTED, 4);
    read_own(own, OWN, SCANS, FEW, BURAIGUE_BUFFER_TOO_SMALL, 0);
    read_own(own, OWN, SCANS - 1, BURAIGUE_TOKENS, BURAIGUE_MALFORMED, 26);
    read_own(fours, FOURS, SCANS - 1, BURAIGUE_TOKENS, BURAIGUE_AMBIGUOUS_LETTER, 3);
    done("buraigue_read_lettered");
}

static void check_table(size_t length, enum buraigue_reply reply, uint64_t at) {
    lend(&one, 0);
    uint64_t number = buraigue_check_tables(grammar, g, tables, length, &place);
    expect(number, reply, at, 1);
}

static void check_tables(void) {
    check_table(t, BURAIGUE_ACCEPTED, 0);
    check_table(t - 1, BURAIGUE_MALFORMED, t - 9);
    done("buraigue_check_tables");
}

static void build_table(const uint8_t *book, size_t length, size_t n, enum buraigue_reply reply, uint64_t at) {
    uint64_t number = buraigue_build_tables(book, length, lend(&one, n), n, &place, &size);
    expect(number, reply, at, size == (reply ? 0 : t) && holds(&one, tables, size));
}

static void build_tables(void) {
    build_table(grammar, g, t, BURAIGUE_ACCEPTED, 0);
    build_table(grammar, g, BURAIGUE_BOOK, BURAIGUE_ACCEPTED, 0);
    build_table(grammar, g, t - 1, BURAIGUE_BUFFER_TOO_SMALL, 0);
    build_table(grammar, g, FEW, BURAIGUE_BUFFER_TOO_SMALL, 0);
    build_table(grammar, g - 1, BURAIGUE_BOOK, BURAIGUE_MALFORMED, g - 12);
    build_table(ambiguous, a, BURAIGUE_BOOK, BURAIGUE_CONFLICT, 5);
    done("buraigue_build_tables");
}

typedef uint64_t session(const uint8_t *, size_t, const uint8_t *, size_t, const uint8_t *, size_t, uint8_t *, size_t, uint8_t *, size_t,
                         uint64_t *, uint64_t *, uint64_t *);

static void run(session *call, size_t length, const void *input, size_t n, size_t s, size_t l, enum buraigue_reply reply, uint64_t at) {
    uint8_t *stack = lend(&one, s), *list = lend(&other, l);
    uint64_t number = call(grammar, g, tables, length, input, n, stack, s, list, l, &place, &rules, &units);
    expect(number, reply, at, rules == (reply ? 0 : 5) && units == (reply ? 0 : 1) && holds(&one, "", 0) && holds(&other, listing, rules));
}

/* the session 1423 of D needs 9 states and 5 rules */
static void sessions(session *call, const void *input, size_t n) {
    run(call, t, input, n, 9, 5, BURAIGUE_ACCEPTED, 4);
    run(call, t, input, n, BURAIGUE_BOOK, BURAIGUE_BOOK, BURAIGUE_ACCEPTED, 4);
    run(call, t, input, n, FEW, 5, BURAIGUE_BUFFER_TOO_SMALL, 0);
    run(call, t, input, n, 9, FEW, BURAIGUE_BUFFER_TOO_SMALL, 1);
    run(call, t - 1, input, n, 9, 5, BURAIGUE_MALFORMED, t - 9);
}

static void list(size_t length, const void *input, size_t n, size_t s, size_t l, size_t c, enum buraigue_reply reply, uint64_t at,
                 const char *codes, size_t k) {
    uint8_t *stack = lend(&one, s), *list = lend(&other, l), *slice = lend(&third, c);
    uint64_t number = buraigue_list_expected(grammar, g, tables, length, input, n, stack, s, list, l, slice, c, &place, &count);
    expect(number, reply, at, count == k && holds(&one, "", 0) && holds(&other, "", 0) && holds(&third, codes, k));
}

/* after 1423 a bag is whole, and another may begin; 11.. is wrong at 1, where a group or a repeat fits; a trial of 2 needs what 14 needs */
static void lists(void) {
    list(t, tokens, sizeof tokens, BURAIGUE_BOOK, BURAIGUE_BOOK, BURAIGUE_CODES, BURAIGUE_ACCEPTED, 4, "\0\1", 2);
    list(t, tokens, sizeof tokens, BURAIGUE_BOOK, BURAIGUE_BOOK, 2, BURAIGUE_ACCEPTED, 4, "\0\1", 2);
    list(t, tokens, sizeof tokens, BURAIGUE_BOOK, BURAIGUE_BOOK, 1, BURAIGUE_BUFFER_TOO_SMALL, 4, "", 0);
    list(t, "\1\1\2\3", 4, BURAIGUE_BOOK, BURAIGUE_BOOK, BURAIGUE_CODES, BURAIGUE_ACCEPTED, 1, "\2\4", 2);
    list(t, "\1\4", 2, BURAIGUE_BOOK, 4, BURAIGUE_CODES, BURAIGUE_BUFFER_TOO_SMALL, 2, "", 0);
    list(t, "\1\5\2\3", 4, BURAIGUE_BOOK, BURAIGUE_BOOK, BURAIGUE_CODES, BURAIGUE_UNDECLARED, 1, "", 0);
    list(t - 1, tokens, sizeof tokens, BURAIGUE_BOOK, BURAIGUE_BOOK, BURAIGUE_CODES, BURAIGUE_MALFORMED, t - 9, "", 0);
    done("buraigue_list_expected");
}

static void make(size_t length, size_t depth, size_t n, size_t l, enum buraigue_reply reply, uint64_t at) {
    uint8_t *slice = lend(&one, n), *list = lend(&other, l);
    uint64_t number = buraigue_make_load(grammar, length, 17, depth, slice, n, list, l, &place, &count, &rules);
    expect(number, reply, at, count == (reply ? 0 : 4) && rules == (reply ? 0 : 5) && holds(&one, tokens, count) && holds(&other, listing, rules));
}

/* seed 17 makes the session 1423 of D: 4 tokens and 5 rules */
static void loads(void) {
    make(g, 15, 4, 5, BURAIGUE_ACCEPTED, 0);
    make(g, 15, BURAIGUE_LOAD, BURAIGUE_BOOK, BURAIGUE_ACCEPTED, 0);
    make(g, 15, FEW, 5, BURAIGUE_BUFFER_TOO_SMALL, 0);
    make(g, 15, 4, FEW, BURAIGUE_BUFFER_TOO_SMALL, 0);
    make(g, 16, 4, 5, BURAIGUE_LIMIT_EXCEEDED, 0);
    make(g - 1, 15, 4, 5, BURAIGUE_MALFORMED, g - 12);
    done("buraigue_make_load");
}

static void bound(const uint8_t *book, size_t length, size_t scans, enum buraigue_reply reply, uint64_t at, uint64_t most, uint64_t none) {
    lend(&one, 0);
    uint64_t number = buraigue_bound_listing(book, length, scans, &place, &rules, &count);
    expect(number, reply, at, rules == most && count == none);
}

/* D has an empty right side; the ambiguous grammar has none, and one nonterminal */
static void bounds(void) {
    bound(ambiguous, a, 0, BURAIGUE_ACCEPTED, 0, 0, 0);
    bound(ambiguous, a, 1, BURAIGUE_ACCEPTED, 0, 1, 0);
    bound(ambiguous, a, 65535, BURAIGUE_ACCEPTED, 0, 131069, 0);
    bound(ambiguous, a, 65536, BURAIGUE_LIMIT_EXCEEDED, 0, 0, 0);
    bound(ambiguous, a, SIZE_MAX, BURAIGUE_LIMIT_EXCEEDED, 0, 0, 0);
    bound(grammar, g, 4, BURAIGUE_ACCEPTED, 0, 0, 1);
    bound(grammar, g - 1, 4, BURAIGUE_MALFORMED, g - 12, 0, 0);
    done("buraigue_bound_listing");
}

/* a session through the bank's letters, as `run` has the calls */
static uint64_t run_own(const uint8_t *grammar, size_t g, const uint8_t *tables, size_t t, const uint8_t *file, size_t length, uint8_t *stack,
                        size_t n, uint8_t *listing, size_t k, uint64_t *place, uint64_t *rules, uint64_t *units) {
    return buraigue_run_lettered(grammar, g, tables, t, own, OWN, file, length, stack, n, listing, k, place, rules, units);
}
static uint64_t run_fours(const uint8_t *grammar, size_t g, const uint8_t *tables, size_t t, const uint8_t *file, size_t length, uint8_t *stack,
                          size_t n, uint8_t *listing, size_t k, uint64_t *place, uint64_t *rules, uint64_t *units) {
    return buraigue_run_lettered(grammar, g, tables, t, fours, FOURS, file, length, stack, n, listing, k, place, rules, units);
}

int main(void) {
    g = load("examples/d.grammar", grammar), t = load("examples/d.tables", tables), a = load("examples/ambiguous.grammar", ambiguous);
    read_grammars();
    read_scans();
    read_letters();
    read_lettered();
    check_tables();
    build_tables();
    sessions(buraigue_run_session, tokens, sizeof tokens);
    run(buraigue_run_session, t, "\1\1\2\3", 4, 9, 5, BURAIGUE_SYNTAX_ERROR, 1);
    run(buraigue_run_session, t, "\1\5\2\3", 4, 9, 5, BURAIGUE_UNDECLARED, 1);
    done("buraigue_run_session");
    sessions(buraigue_run_scans, scans, SCANS);
    run(buraigue_run_scans, t, "1,D,W0001\n2,D,W0001\n", 20, 9, 5, BURAIGUE_SYNTAX_ERROR, 1);
    run(buraigue_run_scans, t, "1,D,W0001\n1,D,W0002\n", 20, 9, 5, BURAIGUE_CONFLICTING_REPEAT, 10);
    run(buraigue_run_scans, t, scans, SCANS - 1, 9, 5, BURAIGUE_MALFORMED, 26);
    done("buraigue_run_scans");
    sessions(run_own, own_scans, SCANS);
    run(run_own, t, scans, SCANS, 9, 5, BURAIGUE_UNDECLARED, 0);
    run(run_own, t, "1,X,W0001\n2,X,W0001\n", 20, 9, 5, BURAIGUE_SYNTAX_ERROR, 1);
    run(run_fours, t, scans, SCANS - 1, 9, 5, BURAIGUE_AMBIGUOUS_LETTER, 3);
    done("buraigue_run_lettered");
    lists();
    loads();
    bounds();
    printf("%u cases, %u wrong\n", all, all_wrong);
    return all_wrong != 0;
}
