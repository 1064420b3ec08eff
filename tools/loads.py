"""Test loads by the documents' text, apart from the proved code. For the script that makes cases."""
import math
import tables


def rules_by_left(g):
    """The numbers of each nonterminal's rules, in book order."""
    return {x: [i for i, r in enumerate(g.rules, 1) if r.left == x] for x in range(tables.FIRST, tables.FIRST + g.n)}


def lowest_rules(g, own):
    """Of each nonterminal the first rule of least derivation height."""
    least = dict.fromkeys(own, math.inf)

    def height(i):
        return 1 + max((least[x] for x in tables.right_of(g.rules[i - 1]) if x >= tables.FIRST), default=0)

    for _ in own:  # a lowest derivation has no nonterminal below itself, so it is no higher than there are nonterminals
        least = {x: min(map(height, own[x])) for x in own}
    return {x: min(own[x], key=height) for x in own}


def expand(g, seed, depth):
    """The load, leftmost first: each token as (token, 0), each listed rule as (0, rule)."""
    own = rules_by_left(g)
    lowest = lowest_rules(g, own)
    state, ahead = seed, [(g.goal, depth)]
    while ahead:
        x, left = ahead.pop()
        if left is None:
            yield 0, x
        elif x < tables.FIRST:
            yield x, 0
        else:
            i = lowest[x]
            if left:
                state = (1103515245 * state + 12345) % 4294967296
                i = own[x][state // 65536 % len(own[x])]
            mark = tables.mark_of(g, i)
            below = [(y, max(left - 1, 0)) for y in tables.right_of(g.rules[i - 1])]
            ahead += reversed(below[:mark] + [(i, None)] + below[mark:])


def make_load(book, seed, depth, n, k):
    """Document 02, S-4: the number, the place, the tokens and the listing, with n tokens and k rules lent."""
    if depth > 15:
        return 2, 0, [], []
    try:
        g = tables.read_grammar(book)
    except tables.Refused as why:
        return *why.args, [], []
    tokens, listing = [], []
    for token, rule in expand(g, seed, depth):
        (tokens if token else listing).append(token or rule)
        if len(tokens) > min(n, 65535) or len(listing) > k:
            return 11, 0, [], []
    return 0, 0, tokens, listing
