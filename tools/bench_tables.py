#!/usr/bin/env python3
"""Writes the books that bench/check.c and bench/stack.c measure to a folder: NAME.grammar and NAME.tables.

    tools/bench_tables.py FOLDER
"""
import os, sys
import tables

def grammar(t, n, rules):
    return ''.join(f'{l}\n' for l in [f'G,{t},{n},{len(rules)},64', *(','.join(map(str, r)) for r in rules)]).encode()


def bank(kinds):
    """A session of bags of so many kinds; each kind has its own scans, perhaps repeated, in a group of its own."""
    bag, scans = lambda i: 65 + i, lambda i: 65 + kinds + i
    rules = [['R', 64, '^'], *(['R', 64, 64, '^', bag(i)] for i in range(kinds))]
    for i in range(kinds):
        rules += [['U', bag(i), i + 1, '^', scans(i), '/', kinds + 1], ['R', scans(i), '^'], ['R', scans(i), scans(i), '^', kinds + 2 + i]]
    return grammar(2 * kinds + 1, 2 * kinds + 1, rules)


def chain(links, strings):
    """Nonterminals that begin each other, last first, so that each pass of a closure gets one link on; strings that are full of the first."""
    rules = [['R', 64, '^', 2 + k, *[65] * 14] for k in range(strings)]
    return grammar(63, 1 + links, rules + [['R', 64 + links, '^', 1], *(['R', 64 + i, 65 + i, '^'] for i in range(links - 1, 0, -1))])


def alike(count, scans=0):
    """Rules with one beginning, told apart by their last scan: nearly as many kernel lines as a book may have. With a kind of so many scans
    more, as many."""
    kinds, one = count + (scans > 0), lambda i: 65 + i
    rules = [['R', 64, '^'], *(['R', 64, 64, one(i), '^'] for i in range(kinds)), *(['R', one(i), *[1] * 14, '^', 2 + i] for i in range(count))]
    return grammar(1 + kinds, 1 + kinds, rules + [['R', one(count), *[2 + count] * scans, '^']] * (scans > 0))


def full():
    """Scans each once, in their order, as far as they come: every symbol is a group. 63 terminals, 127 rules, 127 entries and 255 states, the
    most of each."""
    rules = [rule for i in range(63) for rule in (['R', 64 + i, '^', 1 + i, '/', 65 + i], ['R', 64 + i, '^'])]
    return grammar(63, 64, rules + [['R', 127, 1, '^']])


def unmoved(t):
    """The tables without lines N but those along the strings: a closure for each state, and few cells to read."""
    return t._replace(actions={k: a for k, a in t.actions.items() if a[0] != 'N' or k[1] <= 65})


def uncelled(t):
    """The tables without their last action line: refused at the last state, by the last test."""
    return t._replace(actions={k: a for k, a in t.actions.items() if k != max(t.actions)})


def narrow(t):
    """The tables with another context in their last kernel line: refused at the last state as well."""
    return t._replace(kernels={**t.kernels, max(t.kernels): {1}})


def main():
    books = {}
    for kinds in (2, 4, 8, 16, 31):
        books[f'bank-{kinds}'] = bank(kinds), None
    books['alike'] = alike(56), None
    books['chain'] = chain(63, 5), None
    books['chain-refused'] = chain(63, 11), unmoved
    books['lines'] = alike(56, 11), None
    books['full'] = full(), None
    books['full-uncelled'] = full(), uncelled
    books['full-narrow'] = full(), narrow
    for name, (text, change) in books.items():
        g = tables.read_grammar(text)
        t = tables.build(g)
        t = change(t) if change else t
        book = tables.write(t)
        print(f'{name}: {len(g.rules)} rules, {t.states} states, {len(t.kernels)} kernel lines, {len(t.actions)} action lines, {len(book)} bytes, reply {tables.check(text, book)}')
        for kind, out in (('grammar', text), ('tables', book)):
            with open(os.path.join(sys.argv[1], f'{name}.{kind}'), 'wb') as f:
                f.write(out)


main()
