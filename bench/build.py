#!/usr/bin/env python3
"""How long building tables takes, beside bison on the same grammar: as processes, and the building alone; best of many runs.

    sh bench/run.sh build

The building alone is the call for C, and of bison the time that `bison --trace=time` tells less 'running m4' and 'outputting parser'.
"""
import re, subprocess, time

OUT = 'target/bench'
NAMES = ('d', 'bloodbank', 'hospital')


def best(runs, *command):
    times = []
    for _ in range(runs):
        t = time.perf_counter()
        subprocess.run(command, check=True, stdout=subprocess.DEVNULL)
        times.append(time.perf_counter() - t)
    return min(times) * 1e3


def alone(runs, *command):
    times = []
    for _ in range(runs):
        told = subprocess.run(command, check=True, capture_output=True, text=True).stderr
        wall = {name.strip(): float(t) for name, t in re.findall(r'^ (.+?)  .* (\d\.\d{6})', told, re.M)}
        times.append(wall['total time'] - wall['running m4'] - wall['outputting parser'])
    return min(times) * 1e3


def main():
    calls = subprocess.run([f'{OUT}/build', *(f'examples/{name}.grammar' for name in NAMES)], check=True, capture_output=True, text=True).stdout.split()
    nothing = best(200, 'true')
    for name, call in zip(NAMES, calls):
        book, y = f'examples/{name}.grammar', f'{OUT}/{name}.y'
        with open(book, 'rb') as i, open(y, 'wb') as o:
            subprocess.run(['python3', 'tools/bison_grammar.py', name], check=True, stdin=i, stdout=o)
        built = best(200, 'crates/build_tables/out/build_tables', book)
        bison = best(20, 'bison', '-o', f'{OUT}/{name}.c', y)
        tables = alone(20, 'bison', '--trace=time', '-o', f'{OUT}/{name}.c', y)
        print(f'{name}: processes: build_tables {built:.2f} ms, bison {bison:.1f} ms, one that does nothing {nothing:.2f} ms; '
              f'alone: the call {call} ms, bison {tables:.2f} ms')


main()
