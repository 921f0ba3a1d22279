#!/usr/bin/env bash
# The built program of nb_examples as a process of its own: examples made by models, wrong ones, and each request for memory
# refused in turn, of the whole program and of single calls. Usage: tests/examples.sh [PROGRAM]; its last line is 'N
# passed, M failed, K skipped'.
set -uo pipefail
. "$(dirname "$0")/lib/counting.sh"
program=$(realpath "${1:-$here/../crates/nb_examples/out/nb_examples}")
examples=$here/../crates/nb_examples/examples

ordinary() {
    local each
    "$here/join_examples.py" --check
    count $? 'the examples are joined (tests/join_examples.py)'
    enough "$(sed 's/ .*//' "$examples/../stdout")" "$(least nb_examples lines)" 'crates/nb_examples/stdout'

    # Names, texts and tables by the thousand, whose answers the model finds.
    for each in names tables; do
        "$here/examples/${each}_examples.py" | ended "$program" >"$room/output"
        [ $? -eq 0 ] && grep -qE '^[0-9]{5,} examples, 0 wrong$' "$room/output"
        count $? "the examples of tests/examples/${each}_examples.py: $(tail -n 1 "$room/output")"
    done

    # Words that mean nothing have no answer, and an answer that differs is printed.
    printf '%s\n' 'session.parse 0z = More(4)' 'session.parse 00 00 = More(3)' 'session.pares 00 = More(3)' 'table.lode 9:9 9 00 = full' \
        'session.parse 00' 'session.parse 00 = More(4)' 'session.parse 00 = More(3)' | ended "$program" >"$room/output"
    [ $? -eq 1 ] && cmp -s "$room/output" - <<'END'
session.parse 0z = More(4)
    bad words
session.parse 00 00 = More(3)
    bad words
session.pares 00 = More(3)
    no such call
table.lode 9:9 9 00 = full
    no such call
session.parse 00
    no example
session.parse 00 = More(4)
    answered: More(3)
7 examples, 6 wrong
END
    count $? 'wrong examples are printed'
    changed

    # Streams that can't be read or written.
    ended "$program" <"$room" >"$room/output" 2>"$room/errors"
    [ $? -eq 3 ] && [ "$(cat "$room/errors")" = 'nb_examples: read' ]
    count $? 'a folder as standard input'
    ended "$program" </dev/null >/dev/full 2>"$room/errors"
    [ $? -eq 3 ] && [ "$(cat "$room/errors")" = 'nb_examples: write' ]
    count $? 'a full standard output'
}

# Of each call an example with another answer, one with a word more, and one with another last word: each is found wrong.
changed() {
    "$here/examples/changed_examples.py" <"$examples/../stdin" >"$room/input"
    ended "$program" <"$room/input" >"$room/output"
    [ $? -eq 1 ] && [ "$(grep -cE '^[a-z]+\.' "$room/output")" -eq "$(wc -l <"$room/input")" ]
    count $? "each of $(wc -l <"$room/input") changed examples is found wrong: $(tail -n 1 "$room/output")"
}

# ---- The first example of each call, with each request of the whole program refused.

# subject NAME: the first example of each call of a file, of which one lacks memory where a request is refused.
subject() {
    "$here/join_examples.py" "$1" | awk '!seen[$1]++' >"$room/input"
    "$program" <"$room/input" >"$room/output"
    count $? "$1: the first example of each call"
    counted_by lib/every_request.py examples "$room/refuse_memory.so" "$room/input" "$program"
}

subjects() {
    local each
    for each in names service session datagram text table member; do
        subject "$each"
    done
}

part shims compile refuse_memory
part ordinary ordinary
for each in memory quiet; do part $each counted_by examples/each_call.py "$room/refuse_memory.so" "$program" $each; done
part subjects subjects
finish
