#!/usr/bin/env python3
"""Makes what crates/vectors must write: stdout, for the cases that its args names and data/ holds.

    tools/vectors.py                 works out every case
    tools/vectors.py KIND FOLDER     adds the cases of FOLDER first, or replaces those of the same name; KIND is grammar, check,
                                     build, scan, session, expected, load, walk, bound, letters or lettered

FOLDER has a folder for each case: `grammar`, `table`, `tokens` (one a line), `scans`, as its kind asks; `out_len` (the length of the slice
lent) or `lens` (`STACK,LISTING`) where they are not 65,536 and 65,535 each; and `expected`. A session with `scans` is run both ways. Or a
case has `arg1`, `arg2` and so on, the arguments of a program, and `program`, its name, where it is another than KIND's. A list has `lens`
(`STACK,LISTING,CODES`) where they are not 65,536, 65,536 and 64. A load has its seed and its depth in `arg2.txt` and `arg3.txt`, and `lens`
(`TOKENS,LISTING`) where they are not 65,536 each. A walk has `grammar`, `table`, `loaded` (the grammar whose loads are walked) and `loads`,
a line `SEED,DEPTH` for each, the seed at most 65,536. A bound has its number of scans in `arg2.txt`. The scans of a session or a list are
read by the letters book `letters` where there is one. A case of letters is such a book alone, and one of lettered is `scans` read by it,
for as many terminals as `terminals` says.
What a case must write is worked out by tables.py, sessions.py and loads.py, from the documents' text and not from the proved code; where a
case comes with `expected`, the two must agree.
"""
import itertools, os, sys
import loads, sessions, tables

CRATE = os.path.join(os.path.dirname(os.path.abspath(__file__)), '..', 'crates', 'vectors')
WORDS = {'1,': 1, '2,': 2, '3,': 2, '4,': 2, '5,': 5, '6,': 5, '7,': 6, '8,': 6, '9,': 5, '10,': 5, '11,': 2, '12,': 3, '13,': 4, '14,': 6,
         '15,': 7}
# the kind that a program's cases are of, and what its arguments are
PROGRAMS = {
    'read_grammar': ('grammar', ['grammar']), 'check_tables': ('check', ['grammar', 'table']), 'build_tables': ('build', ['grammar']),
    'read_scans': ('scan', ['scans']), 'run_session': ('session', ['grammar', 'table', 'scans', 'letters']),
    'list_expected': ('expected', ['grammar', 'table', 'scans', 'letters']), 'make_load': ('load', ['grammar']),
    'bound_listing': ('bound', ['grammar']),
}
# what the program lends of stack and listing for a list, and of listing for a load, where a case says 65,536
LENT = 1048576


def load(*path):
    path = os.path.join(*path)
    with open(path, 'rb') as f:
        return f.read()


def data(name):
    return load(CRATE, 'data', name)


def save(content, *path):
    path = os.path.join(CRATE, *path)
    os.makedirs(os.path.dirname(path), exist_ok=True)
    with open(path, 'wb') as f:
        f.write(content)


def lines(*words):
    return ''.join(f'{x}\n' for x in words)


# ---- what each call must write

def read_grammar(book):
    try:
        tables.read_grammar(data(book))
    except tables.Refused as why:
        return lines('%d,%d' % why.args)
    return lines('0,0')


def check_tables(grammar, book):
    return lines('%d,%d' % sessions.check(data(grammar), data(book)))


def build_tables(grammar, room):
    number, place, book = tables.build_book(data(grammar), room)
    return lines(f'{number},{place}', f'{len(book)},{len(book)}') + book.decode()


def read_scans(scans, room):
    number, place, tokens = sessions.read_scans(data(scans), room)
    return lines(f'{number},{place}', *tokens)


def read_letters(letters, terminals, room):
    number, place, codes = sessions.read_letters(data(letters), terminals, room)
    return lines(f'{number},{place}', *codes)


def read_lettered(letters, scans, terminals, room):
    number, place, tokens = sessions.read_lettered(data(letters), terminals, data(scans), room)
    return lines(f'{number},{place}', *tokens)


def session(run, *words):
    *files, stack, listing = words
    number, place, units, rules = run(*map(data, files), stack, listing)
    return lines(f'{number},{place},{len(rules)},{units}', *rules)


def listed(run, *words):
    *files, stack, listing, room = words
    lent = [LENT if n == 65536 else n for n in (stack, listing)]
    number, place, codes = run(*map(data, files), *lent, room)
    return lines(f'{number},{place}', *codes)


def make_load(grammar, seed, depth, room, listing):
    number, place, tokens, rules = loads.make_load(data(grammar), seed, depth, room, LENT if listing == 65536 else listing)
    runs = [(x, len(list(run))) for part in (tokens, rules) for x, run in itertools.groupby(part)]
    return lines(f'{number},{place},{len(tokens)},{len(rules)}', *(f'{x},{n}' if n > 1 else x for x, n in runs))


def walk_load(grammar, table, loaded, seed, depth):
    number, place, tokens, rules = loads.make_load(data(loaded), seed, depth, 65535, LENT)
    reply, taken, units, listing = sessions.run_session(data(grammar), data(table), tokens, LENT, LENT)
    return lines(f'{number},{place},{len(tokens)},{len(rules)}', f'{reply},{taken},{len(listing)},{units}', int(listing == rules))


def bound_listing(grammar, scans):
    number, place, rules = sessions.bound_listing(data(grammar), scans)
    return lines(f'{number},{place},{"-" if rules is None else rules}')


def written(call, words):
    words = [int(w[:-1]) if w.endswith(',') else w for w in words]
    lists = {'7,': sessions.list_expected, '8,': sessions.list_expected_scans, '15,': sessions.list_expected_lettered}
    walks = {'5,': sessions.run_session, '6,': sessions.run_scans, '14,': sessions.run_lettered}
    if call in lists:
        return listed(lists[call], *words)
    if call in walks:
        return session(walks[call], *words)
    return {'1,': read_grammar, '2,': check_tables, '3,': build_tables, '4,': read_scans, '9,': make_load, '10,': walk_load,
            '11,': bound_listing, '12,': read_letters, '13,': read_lettered}[call](*words)


# ---- cases

def standing():
    """The cases that args names: the call, and its words."""
    words = load(CRATE, 'args').decode().split()
    while words:
        n = 1 + WORDS[words[0]]
        yield words[0], words[1:n]
        words = words[n:]


def named(words):
    return [w for w in words if not w.endswith(',')][-1]


def option(path, otherwise):
    return load(path).decode().strip() if os.path.exists(path) else otherwise


def given(kind, root):
    """The cases of a folder, their files stored: the call, its words, and what is expected."""
    for name in sorted(os.listdir(root)):
        at = os.path.join(root, name)
        if os.path.isdir(at):
            program = option(os.path.join(at, 'program'), '')
            for call, words in of_kind(PROGRAMS[program][0] if program else kind, at, name):
                yield call, words, load(at, 'expected').decode() if 'expected' in os.listdir(at) else None


def of_kind(kind, at, name):
    """The calls of one case."""
    args = next((args for k, args in PROGRAMS.values() if k == kind), [])
    files = {f: f for f in os.listdir(at)}
    if 'arg1' in files:
        files = {file: f'arg{i + 1}' for i, file in enumerate(args) if f'arg{i + 1}' in files}

    def put(file, ending=''):
        content = load(at, files[file])
        if file == 'tokens':
            content = bytes(map(int, content.split()))
        save(content, 'data', kind, name + ending)
        return f'{kind}/{name}{ending}'

    def numbers(file, otherwise):
        return [n + ',' for n in option(os.path.join(at, file), otherwise).split(',')]

    room = numbers('out_len', '65536')
    if kind == 'grammar':
        return [('1,', [put('grammar')])]
    if kind == 'check':
        return [('2,', [put('grammar', '.grammar'), put('table')])]
    if kind == 'build':
        return [('3,', [put('grammar'), *room])]
    if kind == 'scan':
        return [('4,', [put('scans'), *room])]
    if kind == 'load':
        return [('9,', [put('grammar'), *numbers('arg2.txt', ''), *numbers('arg3.txt', ''), *numbers('lens', '65536,65536')])]
    if kind == 'bound':
        return [('11,', [put('grammar'), *numbers('arg2.txt', '')])]
    terminals = numbers('terminals', '')
    if kind == 'letters':
        return [('12,', [put('letters'), *terminals, *room])]
    if kind == 'lettered':
        return [('13,', [put('letters', '.letters'), put('scans', '.scans'), *terminals, *room])]
    books = [put('grammar', '.grammar'), put('table', '.tables')]
    if kind == 'walk':
        words = [*books, put('loaded')]
        return [('10,', [*words, *(n + ',' for n in line.split(','))]) for line in load(at, 'loads').decode().split()]
    letters = [put('letters', '.letters')] if 'letters' in files else []
    lettered = [*books, *letters]
    if kind == 'expected':
        return [('15,' if letters else '8,', [*lettered, put('scans', '.scans'), *numbers('lens', '65536,65536,64')])]
    lent = numbers('lens', '65535,65535')
    cases = (('5,', books, 'tokens'), ('14,' if letters else '6,', lettered, 'scans'))
    return [(call, [*words, put(file, '.' + file), *lent]) for call, words, file in cases if file in files]


def spread(answer):
    """A load with every byte of a run on its line."""
    out = answer.split()[:1]
    for run in answer.split()[1:]:
        x, _, n = run.partition(',')
        out += [x] * int(n or 1)
    return lines(*out)


def agrees(call, answer, expected):
    """The program build_tables writes the book alone, and make_load each byte on a line."""
    if call == '9,':
        return spread(answer) == expected
    if call == '3,' and answer.startswith('0,0\n'):
        return answer.split('\n', 2)[2] == expected
    return answer == expected or (call == '3,' and answer == expected + '0,0\n')


def main():
    cases = {(call, named(words), *words): (call, words) for call, words in standing()}
    if len(sys.argv) > 1:
        for call, words, expected in given(*sys.argv[1:]):
            if expected is not None and not agrees(call, written(call, words), expected):
                sys.exit(f'{named(words)}: another output is expected')
            cases[(call, named(words), *words)] = call, words
    ordered = sorted(cases.values(), key=lambda case: case[0])
    save(lines(*(w for call, words in ordered for w in [call, *words])).encode(), 'args')
    save(''.join(lines(named(words)) + written(call, words) for call, words in ordered).encode(), 'stdout')
    print(len(ordered), 'cases')


main()
