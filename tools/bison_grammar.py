#!/usr/bin/env python3
"""Turns a grammar book into a bison grammar whose parser lists the rules that it reduces and counts units.

    tools/bison_grammar.py PREFIX < GRAMMAR > PARSER.y

The marks play no part in it. Tokens come from an array, 0 after the last, as the walker reads them.
"""
import sys


def main():
    prefix = sys.argv[1]
    head, *lines = sys.stdin.read().split()
    t, goal = head.split(',')[1], head.split(',')[4]
    name = lambda x: f't{x}' if int(x) < 64 else f'n{x}'
    print(f'%define api.prefix {{{prefix}}}\n%start n{goal}')
    print('%{\n#include "bison.h"\n'
          f'static int {prefix}lex(void);\nstatic void {prefix}error(const char *s) {{ (void)s; }}\n'
          f'static struct session *now;\n%}}')
    for x in range(1, int(t) + 1):
        print(f'%token t{x} {x + 257}')
    print('%%')
    for i, line in enumerate(lines, 1):
        kind, left, *body = line.split(',')
        right = ' '.join(name(x) for x in body if x not in '^/')
        print(f'n{left}: {right or "%empty"} {{ now->listing[now->rules++] = {i}; {"now->units++;" if kind == "U" else ""} }};')
    print('%%')
    print(f'static int {prefix}lex(void) {{ return now->at < now->count ? now->tokens[now->at++] + 257 : 0; }}')
    print(f'int {prefix}_session(struct session *s) {{ now = s; s->at = s->rules = s->units = 0; return {prefix}parse(); }}')


main()
