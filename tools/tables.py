"""Grammar books and table books by the documents' text, apart from the proved code: readers, the construction, a checker, a builder.

For the scripts that make cases and books to measure; slow and plain on purpose.
"""
import sys
from collections import defaultdict, namedtuple

sys.set_int_max_str_digits(0)  # a number may be as long as its book

Rule = namedtuple('Rule', 'left unit before groups')
Grammar = namedtuple('Grammar', 't n goal rules')
Table = namedtuple('Table', 'states entries kernels actions')  # entries: (state, string); kernels, actions: by their key
FIRST = 64
MOST = 65535


class Refused(Exception):
    """A reply other than 0: its number and place."""


# ---- books

def lines_of(book):
    """The lines with their first bytes; a last line without LF is None."""
    if len(book) > 65536:
        raise Refused(2, 0)
    at = 0
    for line in book.split(b'\n')[:-1]:
        yield at, line
        at += len(line) + 1
    if at < len(book):
        yield at, None


def fields_of(line):
    """The fields of a line, numbers as int, or None where it breaks its form."""
    if line is None:
        return None
    out = []
    for f in line.split(b','):
        if f.isdigit():
            if len(f) > 1 and f.startswith(b'0'):
                return None
            out.append(int(f))
        elif len(f) == 1 and (f in b'^/' or b'A' <= f <= b'Z'):
            out.append(f.decode())
        else:
            return None
    return out


def numbers(fields):
    return all(isinstance(f, int) for f in fields)


def need(at, number, holds):
    if not holds:
        raise Refused(number, at)


class Lines:
    """The lines of a book, one at a time; where none is left, None at the book's length."""

    def __init__(self, book):
        self.list = [(at, fields_of(l)) for at, l in lines_of(book)] + [(len(book), None)]
        self.over = len(self.list) - 1
        self.next = 0

    def peek(self):
        return self.list[self.next]

    def take(self):
        self.next += 1
        return self.list[self.next - 1]

    def end(self):
        need(self.list[self.next][0], 1, self.next == self.over)


def terminal(g, x):
    return 1 <= x <= g.t


def nonterminal(g, x):
    return FIRST <= x < FIRST + g.n


def symbol(g, x):
    return terminal(g, x) or nonterminal(g, x)


def rule_of(g, at, f):
    need(at, 1, f and f[0] in ('R', 'U') and len(f) > 1 and isinstance(f[1], int) and all(isinstance(x, int) or x in '^/' for x in f[2:]))
    rest = f[2:]
    right = [x for x in rest if isinstance(x, int)]
    need(at, 2, len(right) <= 15 and all(x <= MOST for x in [f[1], *right]))
    need(at, 3, nonterminal(g, f[1]) and all(symbol(g, x) for x in right))
    mark = rest.index('^') if '^' in rest else None
    need(at, 4, rest.count('^') == 1 and '/' not in rest[:mark] and (rest[-1] != '/')
         and not any(a in ('^', '/') and b == '/' for a, b in zip(rest, rest[1:])))
    groups = [[]]
    for x in rest[mark + 1:]:
        groups.append([]) if x == '/' else groups[-1].append(x)
    return Rule(f[1], f[0] == 'U', rest[:mark], groups if groups[-1] else [])


def read_grammar(book):
    lines = Lines(book)
    at, f = lines.take()
    need(at, 1, f and f[0] == 'G' and len(f) == 5 and numbers(f[1:]))
    _, t, n, r, goal = f
    need(at, 2, 1 <= t <= 63 and 1 <= n <= 64 and 1 <= r <= 127 and goal <= MOST)
    g = Grammar(t, n, goal, [])
    need(at, 3, nonterminal(g, goal))
    for _ in range(r):
        at, f = lines.take()
        g.rules.append(rule_of(g, at, f))
    lines.end()
    codes = range(FIRST, FIRST + n)
    productive = least(lambda s: {r.left for r in g.rules if all(x <= t or x in s for x in right_of(r))})
    for x in codes:
        need(x, 5, x in productive)
    reached = least(lambda s: {goal} | {x for r in g.rules if r.left in s for x in right_of(r) if x >= FIRST})
    for x in codes:
        need(x, 6, x in reached)
    return g


def right_of(r):
    return r.before + [x for group in r.groups for x in group]


def least(step):
    s = set()
    while True:
        more = s | step(s)
        if more == s:
            return s
        s = more


def in_order(g, earlier, string):
    """Document 02, S-5: whether an entry string may stand after these. The first is not asked and binds none; one that is no group is passed over."""
    groups = [group for r in g.rules for group in r.groups]
    uses = [groups.index(s) for s in [*earlier[1:], string] if s in groups]
    return not earlier or string not in groups or all(use < uses[-1] for use in uses[:-1])


def rises(earlier, key):
    """Document 02, S-5: whether a line's key is above that of the line before it."""
    return not earlier or next(reversed(earlier)) < key


def read_table(book, g):
    lines, r = Lines(book), len(g.rules)
    at, f = lines.take()
    need(at, 1, f and f[0] == 'T' and len(f) == 3 and numbers(f[1:]))
    _, states, count = f
    need(at, 2, 1 <= states <= 255 and 1 <= count <= 127)
    state = lambda q: 1 <= q <= states
    entries, kernels, actions = [], {}, {}
    for _ in range(count):
        at, f = lines.take()
        strings = [s for _, s in entries]
        need(at, 1, f and f[0] == 'E' and len(f) > 2 and numbers(f[1:]) and f[2:] not in strings and in_order(g, strings, f[2:]))
        need(at, 2, max(f[1:]) <= MOST and len(f) <= 17)
        need(at, 3, state(f[1]) and all(symbol(g, x) for x in f[2:]))
        entries.append((f[1], f[2:]))
    t = Table(states, entries, kernels, actions)
    while (lines.peek()[1] or ['?'])[0] == 'K':
        at, f = lines.take()
        codes = f[4:]
        need(at, 1, len(f) > 4 and numbers(f[1:]) and all(a < b for a, b in zip(codes, codes[1:])) and rises(kernels, tuple(f[1:4])))
        need(at, 2, max(f[1:]) <= MOST and len(kernels) < 1023)
        need(at, 3, state(f[1]) and 1 <= f[2] <= r + count and f[3] <= len(string_of(g, t, f[2])) and max(codes) <= g.t)
        kernels[tuple(f[1:4])] = set(codes)
    need(lines.peek()[0], 1, kernels)
    while lines.next < lines.over:
        at, f = lines.take()
        need(at, 1, f and f[0] in ('S', 'N', 'A', 'P') and len(f) == 4 and numbers(f[1:]) and rises(actions, tuple(f[1:3])))
        need(at, 2, max(f[1:]) <= MOST)
        letter, q, x, v = f
        need(at, 3, state(q) and {'S': terminal(g, x) and state(v), 'N': nonterminal(g, x) and state(v), 'A': x <= g.t and 1 <= v <= r, 'P': x <= g.t}[letter])
        actions[q, x] = (letter, v)
    return t


# ---- the construction

def string_of(g, t, i):
    r = len(g.rules)
    return right_of(g.rules[i - 1]) if i <= r else t.entries[i - r - 1][1]


def mark_of(g, i):
    return len(g.rules[i - 1].before) if i <= len(g.rules) else None


class First:
    def __init__(self, g):
        self.t = g.t
        self.nullable = least(lambda s: {r.left for r in g.rules if all(x in s for x in right_of(r))})
        self.sets = defaultdict(set)
        while True:
            before = sum(map(len, self.sets.values()))
            for r in g.rules:
                self.sets[r.left] |= self.of(right_of(r), set())
            if sum(map(len, self.sets.values())) == before:
                return

    def of(self, string, follow):
        out = set()
        for x in string:
            out |= {x} if x <= self.t else self.sets[x]
            if x not in self.nullable:
                return out
        return out | follow


def close(g, first, string, kernel):
    """The closure of a kernel, given as contexts by item and dot; `string` gives an item's."""
    by_left = defaultdict(list)
    for j, r in enumerate(g.rules, 1):
        by_left[r.left].append(j)
    out = {k: set(v) for k, v in kernel.items()}
    work = list(out)
    while work:
        i, k = work.pop()
        s = string(i)
        if k == len(s) or k == mark_of(g, i):
            continue
        more = first.of(s[k + 1:], out[i, k])
        for j in by_left[s[k]]:
            if (j, 0) not in out or not more <= out[j, 0]:
                out.setdefault((j, 0), set()).update(more)
                work.append((j, 0))
    return out


def moves_of(g, string, items):
    """By symbol: the items that move past it, with their contexts."""
    out = defaultdict(dict)
    for (i, k), codes in items.items():
        s = string(i)
        if k < len(s) and k != mark_of(g, i):
            out[s[k]][i, k + 1] = codes
    return out


def asked_of(g, first, string, items, entries):
    """By symbol: the actions that the items ask, ('S',) for a move."""
    out = defaultdict(set)
    r = len(g.rules)
    for x in moves_of(g, string, items):
        out[x].add(('S',))
    for (i, k), codes in items.items():
        if i <= r and k == mark_of(g, i):
            for c in first.of([x for group in g.rules[i - 1].groups for x in group], codes):
                out[c].add(('A', i))
        if i > r and k == len(string(i)):
            for c in codes:
                out[c].add(('P', k + 1))
    return out


def wanted(g):
    out = [[g.goal]]
    for r in g.rules:
        for group in r.groups:
            if group not in out:
                out.append(group)
    return out


def groups_asked(g, first, items):
    """The contexts that groups of rules at their recognition point ask of their entries: string, codes."""
    for (i, k), codes in items.items():
        if i <= len(g.rules) and k == mark_of(g, i):
            groups = g.rules[i - 1].groups
            for j, group in enumerate(groups):
                yield group, first.of([x for later in groups[j + 1:] for x in later], codes)


def judge(g, t):
    """The number and place of the reply to a table that was read."""
    r = len(g.rules)
    strings = [s for _, s in t.entries]
    if strings[0] != [g.goal] or sorted(strings) != sorted(wanted(g)):
        return 7, 0
    first, string = First(g), lambda i: string_of(g, t, i)
    kernel = defaultdict(dict)
    for (q, i, k), codes in t.kernels.items():
        kernel[q][i, k] = codes
    lines = defaultdict(dict)
    for (q, x), a in t.actions.items():
        lines[q][x] = a
    faults = {7: set(), 8: set(), 9: set(), 10: set()}
    named = {s for s, _ in t.entries} | {v for letter, v in t.actions.values() if letter in 'SN'}
    entry_state = {tuple(s): (q, r + k) for k, (q, s) in enumerate(t.entries, 1)}

    def include(q, item, codes):
        if item in kernel[q] and not codes <= kernel[q][item]:
            faults[8].add(q)

    for k, (q, _) in enumerate(t.entries, 1):
        if set(kernel[q]) != {(r + k, 0)}:
            faults[7].add(q)
    include(t.entries[0][0], (r + 1, 0), {0})
    for q in range(1, t.states + 1):
        if q not in named:
            faults[7].add(q)
        items = close(g, first, string, kernel[q])
        moves = moves_of(g, string, items)
        for x, (letter, v) in lines[q].items():
            if letter in 'SN' and x in moves:
                if set(moves[x]) != set(kernel[v]):
                    faults[7].add(q)
                for item, codes in moves[x].items():
                    include(v, item, codes)
        for group, codes in groups_asked(g, first, items):
            s, i = entry_state[tuple(group)]
            include(s, (i, 0), codes)
        asked = asked_of(g, first, string, items, t.entries)
        if any(len(a) > 1 for a in asked.values()):
            faults[9].add(q)
        if {x: {('S',) if a[0] in 'SN' else a} for x, a in lines[q].items()} != {x: a for x, a in asked.items() if a}:
            faults[10].add(q)
    return next(((n, min(f)) for n, f in faults.items() if f), (0, 0))


def check(grammar, book):
    """The reply to both books."""
    try:
        need(0, 2, len(grammar) <= 65536 and len(book) <= 65536)
        g = read_grammar(grammar)
        return judge(g, read_table(book, g))
    except Refused as e:
        return e.args


# ---- the builder

def build(g):
    """A table with the smallest contexts and a state for each kernel set."""
    first, strings, r = First(g), wanted(g), len(g.rules)
    need(0, 2, len(strings) <= 127)
    string = lambda i: right_of(g.rules[i - 1]) if i <= r else strings[i - r - 1]
    kernels = [frozenset([(r + k, 0)]) for k in range(1, len(strings) + 1)]
    next_state, q = {}, 0
    while q < len(kernels):
        moves = moves_of(g, string, close(g, first, string, {item: set() for item in kernels[q]}))
        for x in sorted(moves):
            target = frozenset(moves[x])
            if target not in kernels:
                kernels.append(target)
                need(0, 2, len(kernels) <= 255 and sum(map(len, kernels)) <= 1023)
            next_state[q, x] = kernels.index(target)
        q += 1
    contexts = [{item: set() for item in k} for k in kernels]
    contexts[0][r + 1, 0].add(0)
    while True:
        before = [sum(map(len, c.values())) for c in contexts]
        for q in range(len(kernels)):
            items = close(g, first, string, contexts[q])
            for x, moved in moves_of(g, string, items).items():
                for item, codes in moved.items():
                    contexts[next_state[q, x]][item] |= codes
            for group, codes in groups_asked(g, first, items):
                k = strings.index(group)
                contexts[k][r + 1 + k, 0] |= codes
        if [sum(map(len, c.values())) for c in contexts] == before:
            break
    actions = {}
    for q, context in enumerate(contexts):
        for x, asked in asked_of(g, first, string, close(g, first, string, context), None).items():
            need(q + 1, 9, len(asked) < 2)
            for a in asked:
                actions[q + 1, x] = ('S' if x < FIRST else 'N', next_state[q, x] + 1) if a == ('S',) else a
    return Table(len(kernels), [(k, s) for k, s in enumerate(strings, 1)],
                 {(q, i, k): codes for q, c in enumerate(contexts, 1) for (i, k), codes in c.items()}, actions)


def write(t):
    out = [f'T,{t.states},{len(t.entries)}']
    out += [','.join(map(str, ['E', q, *s])) for q, s in t.entries]
    out += [','.join(map(str, ['K', *key, *sorted(codes)])) for key, codes in sorted(t.kernels.items())]
    out += [f'{letter},{q},{x},{v}' for (q, x), (letter, v) in sorted(t.actions.items())]
    return ''.join(l + '\n' for l in out).encode()


def build_book(grammar, room):
    """The reply to a grammar book, and the table book where it is 0."""
    try:
        book = write(build(read_grammar(grammar)))
        need(0, 2, len(book) <= 65536)
        need(0, 11, len(book) <= room)
        return 0, 0, book
    except Refused as e:
        return *e.args, b''
