"""Scan files, sessions and what to lend for them by the documents' text, apart from the proved code. For the script that makes cases."""
import functools, re
import tables

LINE = re.compile(rb'(0|[1-9][0-9]*),([A-Z]),([!-+\--~]{1,30})')
HOUSE = [{'D': 1, 'G': 2, 'P': 3, 'E': 5, 'T': 6, 'F': 7}.get(x, 0) for x in 'ABCDEFGHIJKLMNOPQRSTUVWXYZ']
check = functools.cache(tables.check)


def read_letters(book, terminals, room):
    """Document 02, S-8: the number, the place and the codes of A to Z."""
    try:
        tables.need(0, 2, 1 <= terminals <= 63)
        lines = tables.Lines(book)
        at, f = lines.take()
        tables.need(at, 1, f and f[0] == 'L' and len(f) == 27 and tables.numbers(f[1:]))
        codes = f[1:]
        tables.need(at, 2, max(codes) <= tables.MOST)
        tables.need(at, 3, max(codes) <= terminals)
        lines.end()
        for i, c in enumerate(codes):
            tables.need(i, 14, c == 0 or (c != 4 and codes.count(c) == 1))
        tables.need(0, 11, room >= 26)
        return 0, 0, codes
    except tables.Refused as why:
        return *why.args, []


def read_scans(scans, room, codes=HOUSE):
    """The reply's number, its place and the tokens, by the codes of the letters A to Z."""
    if len(scans) > 65536:
        return 2, 0, []
    tokens, place, before, label_before = [], 0, None, None
    for line in scans.split(b'\n')[:-1]:
        m = LINE.fullmatch(line)
        if not m:
            return 1, place, []
        sequence, label = int(m.group(1)), m.group(2, 3)
        if sequence > 65535:
            return 2, place, []
        if sequence == before and label != label_before:
            return 13, place, []
        code = codes[label[0][0] - ord('A')]
        if code == 0:
            return 3, place, []
        tokens.append(4 if sequence == before else code)
        before, label_before = sequence, label
        place += len(line) + 1
    if place < len(scans):
        return 1, place, []
    if len(tokens) > room:
        return 11, 0, []
    return 0, len(tokens), tokens


def read_lettered(letters, terminals, scans, room):
    """The same, by a letters book."""
    if len(scans) > 65536:
        return 2, 0, []
    number, place, codes = read_letters(letters, terminals, 26)
    return (number, place, []) if number else read_scans(scans, room, codes)


def walk(g, t, tokens, n, k):
    """The number, the place, the units and the listing."""
    state_of = {tuple(string): q for q, string in t.entries}
    stack, listing, taken = [t.entries[0][0]], [], 0
    if n < 1:
        return 11, 0, 0, []
    while True:
        code = tokens[taken] if taken < len(tokens) else 0
        letter, value = t.actions.get((stack[-1], code), ('', 0))
        after = list(stack)
        if letter == 'S':
            after.append(value)
        elif letter == 'A':
            r = g.rules[value - 1]
            after = after[:len(after) - len(r.before)]
            after.append(t.actions[after[-1], r.left][1])
            after += [state_of[tuple(group)] for group in reversed(r.groups)]
        elif letter == 'P':
            after = after[:len(after) - value]
            if not after:
                return (12, taken, 0, []) if code else (0, taken, sum(g.rules[i - 1].unit for i in listing), listing)
        else:
            return 12, taken, 0, []
        if len(after) > n or len(listing) + (letter == 'A') > k:
            return 11, taken, 0, []
        stack = after
        listing += [value] * (letter == 'A')
        taken += letter == 'S'


def run_session(grammar, table, tokens, n, k):
    number, place = check(grammar, table)
    if len(tokens) > 65535:
        return 2, 0, 0, []
    if number:
        return number, place, 0, []
    g = tables.read_grammar(grammar)
    stray = [i for i, a in enumerate(tokens) if not 1 <= a <= g.t]
    if stray:
        return 3, stray[0], 0, []
    return walk(g, tables.read_table(table, g), tokens, n, k)


def scanned(grammar, table, scans, letters=None):
    """The number, the place and the tokens of a session's scans: lengths, books, letters book, lines. None is no letters book."""
    if len(scans) > 65536 or len(letters or b'') > 65536:
        return 2, 0, []
    number, place = check(grammar, table)
    if number:
        return number, place, []
    if letters is None:
        return read_scans(scans, 65536)
    return read_lettered(letters, tables.read_grammar(grammar).t, scans, 65536)


def run_scans(grammar, table, scans, n, k, letters=None):
    number, place, tokens = scanned(grammar, table, scans, letters)
    return (number, place, 0, []) if number else run_session(grammar, table, tokens, n, k)


def run_lettered(grammar, table, letters, scans, n, k):
    return run_scans(grammar, table, scans, n, k, letters)


def trial(g, t, tokens, code, n, k):
    """How the trial of a code after these tokens ends: 0 where it is taken, 12, or 11."""
    number, place, _, _ = walk(g, t, [*tokens, code] if code else tokens, n, k)
    return 0 if place > len(tokens) else number


def list_expected(grammar, table, tokens, n, k, room):
    """Document 02, S-1: the number, the place and the codes."""
    number, place, _, _ = run_session(grammar, table, tokens, n, k)
    if number not in (0, 12):
        return number, place, []
    g = tables.read_grammar(grammar)
    t = tables.read_table(table, g)
    ends = [trial(g, t, list(tokens[:place]), c, n, k) for c in range(g.t + 1)]
    codes = [c for c, end in enumerate(ends) if end == 0]
    return (11, place, []) if 11 in ends or len(codes) > room else (0, place, codes)


def list_expected_scans(grammar, table, scans, n, k, room, letters=None):
    number, place, tokens = scanned(grammar, table, scans, letters)
    return (number, place, []) if number else list_expected(grammar, table, tokens, n, k, room)


def list_expected_lettered(grammar, table, letters, scans, n, k, room):
    return list_expected_scans(grammar, table, scans, n, k, room, letters)


def bound_listing(grammar, scans):
    """Document 02, S-7: the number, the place and the bound, which is None where a right side is empty."""
    if scans > 65535:
        return 2, 0, 0
    try:
        g = tables.read_grammar(grammar)
    except tables.Refused as why:
        return *why.args, 0
    if not all(map(tables.right_of, g.rules)):
        return 0, 0, None
    return 0, 0, g.n * (2 * scans - 1) if scans else 0
