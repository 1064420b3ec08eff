/* The calls of Buraigue for C: scan grammars, left-corner tables and sessions of scans. README.md has the formats and the limits.
   `rt lib`, in crates/buraigue_c, writes out/libburaigue_c.a there, for x86-64 Linux.

   A slice is a pointer and a length: `book, book_length` lends the book_length bytes from book on. No pointer is NULL, not even
   with length 0, and what is lent for writing (no const) overlaps nothing else that is lent. Tokens, states and rules are a byte each.

   Every call ends for all bytes and lengths, returns a reply's number and puts its place into *place. Where the number is 0, a slice
   lent for writing holds the result and zeros after it. After a refusal each is zeros from end to end, and each count is 0. What they
   held before the call plays no part. This is proved; crates/buraigue_c/src/lib.rt states it.

   The calls keep no state and take no memory but the machine stack, so threads may call at once, each lending slices of its own. What a
   call needs of the machine stack is said with it, measured (`sh bench/run.sh stack`) and rounded up. To that comes what a thread takes
   for itself, with glibc a few KiB, and what the caller's functions take; glibc gives a thread 8,192 KiB unless it is told otherwise. */
#ifndef BURAIGUE_H
#define BURAIGUE_H

#include <stddef.h>
#include <stdint.h>

#ifdef __cplusplus
extern "C" {
#endif

/* the numbers of replies; README.md says when, and what the place is */
enum buraigue_reply {
    BURAIGUE_ACCEPTED = 0,
    BURAIGUE_MALFORMED = 1,
    BURAIGUE_LIMIT_EXCEEDED = 2,
    BURAIGUE_UNDECLARED = 3,
    BURAIGUE_MISPLACED_MARK = 4,
    BURAIGUE_UNPRODUCTIVE = 5,
    BURAIGUE_UNREACHABLE = 6,
    BURAIGUE_ITEM_MISMATCH = 7,
    BURAIGUE_MISSING_LOOKAHEAD = 8,
    BURAIGUE_CONFLICT = 9,
    BURAIGUE_CELL_MISMATCH = 10,
    BURAIGUE_BUFFER_TOO_SMALL = 11,
    BURAIGUE_SYNTAX_ERROR = 12,
    BURAIGUE_CONFLICTING_REPEAT = 13,
    BURAIGUE_AMBIGUOUS_LETTER = 14
};

/* what is always enough to lend: for an item table, for the tokens of a scan file, for the codes of A to Z, for a table book, for the codes
   that could come, for the tokens of a load */
enum {
    BURAIGUE_ITEMS = 8192,
    BURAIGUE_TOKENS = 10922,
    BURAIGUE_LETTERS = 26,
    BURAIGUE_BOOK = 65536,
    BURAIGUE_CODES = 64,
    BURAIGUE_LOAD = 65535
};

/* Reads a grammar book into the item table: rule i in the 64 bytes from items[64 * i] on, its left side, length, recognition point and
   unit flag (1 for U), symbol k at 16 + k, and at 32 + k a 1 where symbol k begins a group. Less than BURAIGUE_ITEMS bytes are too few.
   Machine stack: 16 KiB. */
uint64_t buraigue_read_grammar(const uint8_t *book, size_t book_length, uint8_t *items, size_t items_length, uint64_t *place);

/* Reads a scan file with the house letters into its tokens; *place is how many there are. Machine stack: 16 KiB. */
uint64_t buraigue_read_scans(const uint8_t *file, size_t file_length, uint8_t *tokens, size_t tokens_length, uint64_t *place);

/* Reads a letters book for a grammar of so many terminals, 1 to 63, into the codes of A to Z: codes[0] is that of A, and 0 is that of a
   letter that is not used. *place is 0, or where the reply is BURAIGUE_AMBIGUOUS_LETTER the index of the first letter whose code is another's
   too, or is 4. Less than BURAIGUE_LETTERS bytes are too few. Machine stack: 16 KiB. */
uint64_t buraigue_read_letters(const uint8_t *book, size_t book_length, size_t terminals, uint8_t *codes, size_t codes_length,
                               uint64_t *place);

/* Reads a scan file as buraigue_read_scans does, through a letters book for so many terminals instead of the house letters. A refusal of the
   letters book comes before those of the scan lines. Machine stack: 16 KiB. */
uint64_t buraigue_read_lettered(const uint8_t *letters, size_t letters_length, size_t terminals, const uint8_t *file, size_t file_length,
                                uint8_t *tokens, size_t tokens_length, uint64_t *place);

/* Checks a table book against its grammar book, whoever built it. Machine stack: 256 KiB. */
uint64_t buraigue_check_tables(const uint8_t *grammar, size_t grammar_length, const uint8_t *book, size_t book_length, uint64_t *place);

/* Builds the table book of a grammar book; *size is how many bytes of the slice it takes. Machine stack: 272 KiB. */
uint64_t buraigue_build_tables(const uint8_t *grammar, size_t grammar_length, uint8_t *book, size_t book_length, uint64_t *place,
                               uint64_t *size);

/* Checks both books, then walks the tokens, 1 to t each, at most 65,535: the rules that it announces stand in listing, *rules counts them
   and *units those that count a unit; stack is zeros after. How much stack and listing a session needs depends on the grammar: the program
   run_session lends 1,048,576 of each, and buraigue_bound_listing tells how much listing is enough. Where they are too short the reply is
   BURAIGUE_BUFFER_TOO_SMALL. Machine stack: 272 KiB. */
uint64_t buraigue_run_session(const uint8_t *grammar, size_t grammar_length, const uint8_t *tables, size_t tables_length,
                              const uint8_t *tokens, size_t tokens_length, uint8_t *stack, size_t stack_length, uint8_t *listing,
                              size_t listing_length, uint64_t *place, uint64_t *rules, uint64_t *units);

/* The same over a scan file with the house letters. Machine stack: 272 KiB. */
uint64_t buraigue_run_scans(const uint8_t *grammar, size_t grammar_length, const uint8_t *tables, size_t tables_length,
                            const uint8_t *file, size_t file_length, uint8_t *stack, size_t stack_length, uint8_t *listing,
                            size_t listing_length, uint64_t *place, uint64_t *rules, uint64_t *units);

/* The same through a letters book, which is read after both books and before the scans. Machine stack: 272 KiB. */
uint64_t buraigue_run_lettered(const uint8_t *grammar, size_t grammar_length, const uint8_t *tables, size_t tables_length,
                               const uint8_t *letters, size_t letters_length, const uint8_t *file, size_t file_length, uint8_t *stack,
                               size_t stack_length, uint8_t *listing, size_t listing_length, uint64_t *place, uint64_t *rules,
                               uint64_t *units);

/* What could have come: where buraigue_run_session, lent this stack and listing, would reply 0 or 12 at a place, every code that could
   stand there, in rising order: 0 where the tokens before the place are a sentence already, and each terminal that after them begins one.
   The reply is then 0 at that place, and *count codes stand in codes, of which BURAIGUE_CODES are always enough; 0 is a code and the
   filling too, so look at *count. Where a code's trial outgrows stack or listing, or the list its slice, the reply is
   BURAIGUE_BUFFER_TOO_SMALL at the place. Every other reply is the session's. stack and listing are zeros after. Machine stack: 272 KiB. */
uint64_t buraigue_list_expected(const uint8_t *grammar, size_t grammar_length, const uint8_t *tables, size_t tables_length,
                                const uint8_t *tokens, size_t tokens_length, uint8_t *stack, size_t stack_length, uint8_t *listing,
                                size_t listing_length, uint8_t *codes, size_t codes_length, uint64_t *place, uint64_t *count);

/* Writes a test load: the sentence that a grammar book, a seed and a depth of 0 to 15 settle, the same wherever it is made, and its listing.
   *count tokens stand in tokens and *rules rules in listing; buraigue_run_session with tables that are accepted for the grammar walks these
   tokens whole and lists these rules. *place is 0. BURAIGUE_LOAD tokens are always enough: a longer load is refused. Where a slice is too
   short for the load the reply is BURAIGUE_BUFFER_TOO_SMALL, and a depth above 15 is BURAIGUE_LIMIT_EXCEEDED; every other reply is that of
   buraigue_read_grammar with enough lent. Machine stack: 48 KiB. */
uint64_t buraigue_make_load(const uint8_t *grammar, size_t grammar_length, uint32_t seed, size_t depth, uint8_t *tokens, size_t tokens_length,
                            uint8_t *listing, size_t listing_length, uint64_t *place, uint64_t *count, uint64_t *rules);

/* How many rules the listing of a session of so many scans, 65,535 at most, can have, whatever tables are accepted for the grammar: with
   *rules of listing no sentence of so many scans is BURAIGUE_BUFFER_TOO_SMALL for want of listing. Of a grammar with an empty right side there
   is no bound: *unbounded is then 1, and else 0. *place is 0. More scans are BURAIGUE_LIMIT_EXCEEDED; every other reply is that of
   buraigue_read_grammar with enough lent. Machine stack: 16 KiB. */
uint64_t buraigue_bound_listing(const uint8_t *grammar, size_t grammar_length, size_t scans, uint64_t *place, uint64_t *rules,
                                uint64_t *unbounded);

#ifdef __cplusplus
}
#endif

#endif
