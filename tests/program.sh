#!/usr/bin/env bash
# The built program as a process of its own: exit statuses, words, what it prints, how often it writes, and each request
# for memory refused in turn. Usage: tests/program.sh [PROGRAM [FILE..]], where FILE is one of tests/cases, which is run alone, or PROGRAM PAGE,
# for the samples of a page, such as docs/GUIDE.md; its last line is 'N passed, M failed, K skipped'.
set -uo pipefail
. "$(dirname "$0")/lib/counting.sh"
program=${1:-$here/../crates/nbt/out/nbt}

# Names in packets and a datagram's packet, as samples have them.
read -r fred scoped empty < <(PYTHONPATH=$here/lib python3 -c 'import limits; print(*(limits.NAMED[it] for it in ("FRED", "SCOPED", "EMPTY")))')

nbt() { ended "$program" "$@"; }

# ---- The cases of tests/cases, by tests/lib/samples.py. `hostile NAME=VALUE .. COMMAND` runs a command over the devices of
# tests/lib/devices.c, `terminal COMMAND` one with a terminal as standard error. What stands behind `% ` is held by the model alone (tests/program/beside_model.py), as what each command of the other
# samples prints is too.

# cases [FILE..]: those of these files, or of all.
cases() {
    local file
    mkdir "$room/files"
    [ $# -gt 0 ] || set -- "$here"/cases/*.txt
    for file; do PATH=$room/bin:$PATH counted_by lib/samples.py "$room/files" "$here/cases/${file##*/}"; done
}

pages() {
    page README.md
    page docs/GUIDE.md
}

# Tables as another version saved them: each line of tests/program/saved.txt has one, and behind it, where it has no promise, the same
# in the first form. Both are saved again as the first; of all of them, in either order, comes their join.
saved() {
    local table first
    grep '^4e4254' "$here/program/saved.txt" >"$room/tables"
    while read -r table first; do
        for first in $first $table; do
            nbt merge <<<"$first" | cmp -s - <(echo "$table")
            count $? "nbt merge: ${first:0:80}"
        done
    done <"$room/tables"
    sed -n 's/^all //p' "$here/program/saved.txt" >"$room/all"
    sed 's/ .*//' "$room/tables" | nbt merge | cmp -s - "$room/all"
    count $? 'nbt merge: all tables of tests/program/saved.txt'
    tac "$room/tables" | sed 's/.* //' | nbt merge | cmp -s - "$room/all"
    count $? 'nbt merge: the same in the other order, in the first form where there is one'
}

# How often the program writes; streams that fail are those of tests/process.py.
streams() { PATH=$room/bin:$PATH counted_by lib/samples.py "$room/files" "$here/cases/devices.txt" writes; }

# ---- Each request for memory refused.

# remembers INPUT COMMAND..: commands over an input, with each request refused.
remembers() {
    local input=$1 command
    for command in "${@:2}"; do
        eval "counted_by lib/every_request.py command '$room/refuse_memory.so' '$input' '$program' $command"
    done
}

memory() {
    local group="build group 10.0.0.5:138/0001 'JOE<00>' 'FRED<20>'"
    remembers /dev/null "name 'FRED<20>.NETBIOS.COM'" "name --bytes $scoped" 'name FRED' "name --bytes ${fred}00" name 'name --help' "help 'bad text 4'" \
        --help '' replay "build registration 0002 'FRED<20>' 300000 0000 10.0.0.5" 'build message 616263' "$group empty 100" 'build query 0001 FRED' \
        "$group 00010203040506070809 4" 'name --bytes 0g'
    { nbt build query 0001 'FRED<20>.A' && printf 'tick 2\n139 0 00000003616263\nx\n'; } >"$room/packets"
    remembers "$room/packets" show 'show --brief' 'show --brief --json'
    { nbt build group 10.0.0.5:138/0001 'JOE<00>' 'FRED<20>' 000102030405 2 && echo tick 1; } >"$room/pieces"
    remembers "$room/pieces" save 'save --keys 0' "replay 'FRED<20>' 'JOE<00>'" 'replay FRED'
    printf '138 0 %s\n' $empty >"$room/one"
    remembers "$room/one" show save
    printf '138 0 %s\n138 1 %s\ntick 2000\n138 2001 %s\n137 2002 00\n138 2003 17\n' $empty $empty $empty >"$room/capture"
    remembers "$room/capture" "replay 'FRED<20>'" "replay --json --comments 'FRED<20>'" show 'show --json' save
    printf '# one\n138 0 %s\n#\377' $empty >"$room/comments"
    remembers "$room/comments" 'show --comments' "replay --comments 'FRED<20>'"
    printf '137 0 %s\n138 0 %s\n139 0 0000\n' "$(nbt build query 0001 'FRED<20>.A' | cut -c 7-106)" "${empty:0:34}" >"$room/cut"
    remembers "$room/cut" 'show --partial' 'show --partial --json'
    printf '138 0 %s\n' $empty "${empty/0001/0002}" "${empty/0001/0003}" >"$room/several"
    remembers "$room/several" "replay --per-source 2 'FRED<20>'" 'save --per-source 2' 'save --keys 2' save
    nbt save <"$room/capture" | sed p >"$room/tables"
    remembers "$room/tables" merge list 'list --json' agree
    { head -n 1 "$room/tables" && nbt save <"$room/several"; } >"$room/unequal"
    remembers "$room/unequal" merge list agree 'agree --list' 'merge --keys 2' 'merge --per-source 2'
    echo 4e425433 >"$room/magic"
    remembers "$room/magic" merge agree
}

with_tools "$program"
printf '#!/bin/sh\nexec env LD_PRELOAD=%s/devices.so "$@"\n' "$room" >"$room/bin/hostile"
printf '#!/bin/bash\n%q /dev/stdout "$@" | tr -d "\\r"\nexit ${PIPESTATUS[0]}\n' "$here/lib/terminal.py" >"$room/bin/terminal"
chmod +x "$room/bin/hostile" "$room/bin/terminal"
part shims compile devices refuse_memory
if [[ ${2-} == *.md ]]; then
    page "$2"
    total
    exit
elif [ $# -gt 1 ]; then
    cases "${@:2}"
    counted_by program/beside_model.py --files "${@:2}" -- "$program"
    total
    exit
fi
parts cases pages saved
# Beside the model: what is printed of captures and tables, phrases, and fronts of packets.
part model counted_by program/beside_model.py "$program"
parts streams memory
finish
