/* A session as the parsers that bison generates read it: tokens in, rules and units out. */
struct session {
    const unsigned char *tokens;
    unsigned long count, at, rules, units;
    unsigned char *listing;
};
