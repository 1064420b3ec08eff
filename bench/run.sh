#!/bin/sh
# Builds and runs what the arguments name of read, check, session, expected, load, build, lend and stack; all of them where nothing is named. From
# the repository's root, after
#     (cd crates/buraigue_c && rt lib)
#     (cd crates/build_tables && rt run -- ../../examples/d.grammar > /dev/null)
# A number is the KiB of machine stack that `stack`, where it is named after it, gives each call; else it gives 320.
set -e
out=target/bench
mkdir -p $out
books="hospital bank-2 bank-4 bank-8 bank-16 bank-31 alike chain chain-refused"
limits="lines full full-uncelled full-narrow"
kib=320

make() {
    name=$1
    shift
    gcc -O2 -Wall -Wextra -pthread -Ibench bench/$name.c "$@" crates/buraigue_c/out/libburaigue_c.a -o $out/$name
}

# the grammar book and the table book of each name
pairs() {
    cp examples/d.grammar examples/d.tables examples/hospital.grammar examples/hospital.tables $out
    python3 tools/bench_tables.py $out > $out/books
    for book in "$@"; do echo $out/$book.grammar $out/$book.tables; done
}

for what in ${*:-lend stack read check session expected load build}; do
    case $what in
    read | lend | expected | load)
        make $what
        $out/$what
        ;;
    check)
        make check
        $out/check $(pairs $books)
        ;;
    stack)
        make stack
        $out/stack $kib $(pairs d $books $limits)
        ;;
    [1-9]*)
        kib=$what
        ;;
    session)
        for grammar in d hospital; do
            python3 tools/bison_grammar.py $grammar < examples/$grammar.grammar > $out/$grammar.y
            bison -o $out/$grammar.c $out/$grammar.y
        done
        make session $out/d.c $out/hospital.c
        $out/session
        ;;
    build)
        make build
        python3 bench/build.py
        ;;
    *)
        echo "bench/run.sh: no $what" >&2
        exit 1
        ;;
    esac
done
