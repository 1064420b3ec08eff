/* How much of the machine stack each call needs, over each pair of a grammar book and a table book that the arguments name after a number.
   First each runs on a thread whose stack was painted: the deepest byte that was written counts, and the most of all is printed, in KiB.
   Then each runs on a thread that has so many KiB as the number says, and no memory below them: a call that needs more dies, and is named.
   sh bench/run.sh stack */
#define _DEFAULT_SOURCE
#include "bench.h"
#include <pthread.h>
#include <stdlib.h>
#include <string.h>
#include <sys/mman.h>
#include <sys/wait.h>
#include <unistd.h>

enum { SIZE = 8 << 20, GUARD = 4 << 20, PAINT = 0xa5 };

static uint8_t grammar[65537], tables[65537], items[BURAIGUE_ITEMS], alike[65535], sentence[BURAIGUE_LOAD], tokens[BURAIGUE_TOKENS],
    book[BURAIGUE_BOOK], states[1 << 20], listing[1 << 20], codes[BURAIGUE_CODES], deep[4096];
static size_t g, t, deep_length;
static uint64_t place, size, rules, units, sentence_length;

/* a bag; as many scans as a file may have; the same, refused at the last */
static uint8_t bag[] = "1,D,W0001\n1,D,W0001\n2,G,O\n3,P,E4532\n", most[65536], torn[65536];
static const struct { uint8_t *bytes; size_t length; } files[] = {{bag, sizeof bag - 1}, {most, 65532}, {torn, 65532}};
enum { FILES = sizeof files / sizeof *files };

static void nothing(void) {}
static void read_grammar(void) { buraigue_read_grammar(grammar, g, items, sizeof items, &place); }
static void read_scans(void) {
    for (int i = 0; i < FILES; i++) buraigue_read_scans(files[i].bytes, files[i].length, tokens, sizeof tokens, &place);
}
/* the house letters as a book, for books that have their codes; any other is refused */
static const uint8_t own[] = "L,0,0,0,1,5,7,2,0,0,0,0,0,0,0,0,3,0,0,0,6,0,0,0,0,0,0\n";
static void read_letters(void) { buraigue_read_letters(own, sizeof own - 1, 63, tokens, sizeof tokens, &place); }
static void read_lettered(void) {
    for (int i = 0; i < FILES; i++)
        buraigue_read_lettered(own, sizeof own - 1, 63, files[i].bytes, files[i].length, tokens, sizeof tokens, &place);
}
static void check_tables(void) { buraigue_check_tables(grammar, g, tables, t, &place); }
static void build_tables(void) { buraigue_build_tables(grammar, g, book, sizeof book, &place, &size); }

static void session_over(const uint8_t *scans, uint64_t k) {
    buraigue_run_session(grammar, g, tables, t, scans, k, states, sizeof states, listing, sizeof listing, &place, &rules, &units);
}
static void run_session(void) {
    for (uint64_t k = 0; k <= sizeof alike; k = 2 * k + 1) session_over(alike, k);
    session_over(sentence, sentence_length);
}
static void run_scans(void) {
    for (int i = 0; i < FILES; i++)
        buraigue_run_scans(grammar, g, tables, t, files[i].bytes, files[i].length, states, sizeof states, listing, sizeof listing, &place, &rules, &units);
}
static void run_lettered(void) {
    for (int i = 0; i < FILES; i++)
        buraigue_run_lettered(grammar, g, tables, t, own, sizeof own - 1, files[i].bytes, files[i].length, states, sizeof states, listing,
                              sizeof listing, &place, &rules, &units);
}
static void list_over(const uint8_t *scans, uint64_t k) {
    buraigue_list_expected(grammar, g, tables, t, scans, k, states, sizeof states, listing, sizeof listing, codes, sizeof codes, &place, &size);
}
static void list_expected(void) {
    for (uint64_t k = 0; k <= sizeof alike; k = 2 * k + 1) list_over(alike, k);
    list_over(sentence, sentence_length);
}

/* nonterminals each below the one before, and any may go back to the first: some of these loads nest 79 deep, which is the most */
static void make_deep(void) {
    size_t n = (size_t)sprintf((char *)deep, "G,1,64,126,64\n");
    for (int x = 64; x < 127; x++) n += (size_t)sprintf((char *)deep + n, "R,%d,^,%d\n", x, x + 1);
    for (int x = 65; x < 127; x++) n += (size_t)sprintf((char *)deep + n, "R,%d,64,^\n", x);
    deep_length = n + (size_t)sprintf((char *)deep + n, "R,127,^,1\n");
}
static void make_load(void) {
    for (uint32_t seed = 0; seed < 100; seed++) {
        buraigue_make_load(grammar, g, seed, 15, states, sizeof states, listing, sizeof listing, &place, &size, &rules);
        buraigue_make_load(deep, deep_length, seed, 15, states, sizeof states, listing, sizeof listing, &place, &size, &rules);
    }
}

static void bound_listing(void) { buraigue_bound_listing(grammar, g, 65535, &place, &rules, &units); }

static const struct { const char *name; void (*call)(void); } calls[] = {
    {"read_grammar", read_grammar}, {"read_scans", read_scans}, {"read_letters", read_letters}, {"read_lettered", read_lettered},
    {"check_tables", check_tables}, {"build_tables", build_tables}, {"run_session", run_session}, {"run_scans", run_scans},
    {"run_lettered", run_lettered}, {"list_expected", list_expected}, {"make_load", make_load}, {"bound_listing", bound_listing}};
enum { CALLS = sizeof calls / sizeof *calls };

static void *run(void *call) {
    (*(void (**)(void))call)();
    return 0;
}

/* runs a call on a thread with this stack; whether there was one */
static int run_on(uint8_t *memory, size_t length, void (*call)(void)) {
    pthread_attr_t attributes;
    pthread_t thread;
    pthread_attr_init(&attributes);
    return !pthread_attr_setstack(&attributes, memory, length) && !pthread_create(&thread, &attributes, run, &call) && !pthread_join(thread, 0);
}

/* bytes of a painted stack that a call writes */
static size_t depth(void (*call)(void)) {
    static uint8_t *memory;
    if (!memory) memory = mmap(0, SIZE, PROT_READ | PROT_WRITE, MAP_PRIVATE | MAP_ANONYMOUS | MAP_STACK, -1, 0);
    memset(memory, PAINT, SIZE);
    if (!run_on(memory, SIZE, call)) return 0;
    size_t i = 0;
    while (i < SIZE && memory[i] == PAINT) i++;
    return SIZE - i;
}

/* whether a call comes back from a stack of this length; in a process of its own, since it dies there where it does not */
static int fits(void (*call)(void), size_t length) {
    pid_t child = fork();
    if (!child) {
        uint8_t *memory = mmap(0, GUARD + SIZE, PROT_READ | PROT_WRITE, MAP_PRIVATE | MAP_ANONYMOUS | MAP_STACK, -1, 0);
        mprotect(memory, GUARD, PROT_NONE);
        _exit(!run_on(memory + GUARD, length, call));
    }
    int status;
    return child > 0 && waitpid(child, &status, 0) == child && WIFEXITED(status) && WEXITSTATUS(status) == 0;
}

/* a pair of books, and a sentence of the grammar */
static void take(char **pair) {
    g = load(pair[0], grammar), t = load(pair[1], tables);
    buraigue_make_load(grammar, g, 5, 15, sentence, sizeof sentence, listing, sizeof listing, &place, &sentence_length, &rules);
}

int main(int argc, char **argv) {
    if (argc < 4) return fprintf(stderr, "usage: stack KIB GRAMMAR TABLES ..\n"), 2;
    size_t kib = strtoul(argv[1], 0, 10);
    for (int i = 0; i < 10922; i++) memcpy(most + 6 * i, "1,D,x\n", 6);
    memcpy(torn, most, sizeof torn);
    memcpy(torn + 65526, "1,D, \n", 6);
    memset(alike, 1, sizeof alike);
    make_deep();

    size_t deepest[CALLS] = {0}, base = depth(nothing);
    int died = 0;
    for (int i = 2; i + 1 < argc; i += 2) {
        take(argv + i);
        for (size_t k = 0; k < CALLS; k++) {
            size_t d = depth(calls[k].call) - base;
            if (d > deepest[k]) deepest[k] = d;
        }
    }
    for (size_t k = 0; k < CALLS; k++) printf("buraigue_%-14s %6.1f KiB of machine stack\n", calls[k].name, deepest[k] / 1024.0);
    fflush(stdout);

    /* a thread has some of its stack for itself */
    size_t length = base + 1024 * kib;
    for (int i = 2; i + 1 < argc; i += 2) {
        take(argv + i);
        for (size_t k = 0; k < CALLS; k++)
            if (!fits(calls[k].call, length)) died = 1, printf("buraigue_%s died on %zu KiB of machine stack: %s\n", calls[k].name, kib, argv[i + 1]);
    }
    if (!died) printf("every call came back from %zu KiB of machine stack, on each of %d pairs of books\n", kib, (argc - 2) / 2);
    return died;
}
