#!/usr/bin/env bash
# tools/nbt-dask over a capture of 9 MiB: killed workers, clients that are killed or ended by signals, and inputs and devices that are
# refused. What isn't installed is left out. Usage: tests/scale.sh [PROGRAM]; its last line is 'N passed, M failed, K skipped'.
set -uo pipefail
. "$(dirname "$0")/lib/counting.sh"
. "$here/scale/cluster_cases.sh"
program=$(realpath "${1:-$here/../crates/nbt/out/nbt}")
tools=$room/installed/share/nbt
cd "$room" || exit

# A longest line.
line=$(limit MOST_LINE)

save() { ended "$program" save --keys "$many"; }

# engine NAME WORD..: $room/NAME, a tool by these words; its first word is the program.
engine() { printf '#!/bin/sh\nexec %s--program "$@"\n' "$(printf '%q ' "${@:2}")" >"$1" && chmod +x "$1"; }

# ends STATUS TEXT WORD..: whether the command ends with the status, and standard error has TEXT, a pattern.
ends() {
    ended "${@:3}" >output 2>errors </dev/null
    [ $? -eq "$1" ] && [[ $(cat errors) == $2 ]]
}

# told STATUS TEXT TABLE WORD..: it does so, with at most a line there; OUT is the table, byte for byte, or isn't there where none is
# named. Nothing else is left of a command that ends well.
told() {
    ends "$1" "$2" "${@:4}" out && [ "$(wc -l <errors)" -le 1 ] && [ ! -s output ] &&
        if [ -n "$3" ]; then cmp -s "$3" out; else [ ! -e out ]; fi
    count $? "${*:4}: $(cat errors)"
    rm -f out
}

# refuses STATUS TEXT WORD.. leaves no OUT, keeps STATUS TEXT WORD.. one that is a saved table; gives TABLE WORD.. makes one.
refuses() { told "$1" "$2" '' "${@:3}"; }
keeps() {
    cp flow.table out
    told "$1" "$2" flow.table "${@:3}"
}
gives() { told 0 '' "$@"; }

# grouped ENGINE NUMBER TABLE WORD..: OUT has so many lines, each of the addresses of its group, and which join to the table, where one is named;
# the file `lines` keeps them.
grouped() {
    ended "$1" "$program" --by-source "$2" "${@:4}" out && [ "$(wc -l <out)" -eq "$2" ] && [ -z "$(strays "$2")" ] &&
        { [ -z "$3" ] || ended "$program" merge --keys "$many" <out | cmp -s - "$3"; }
    count $? "$1 --by-source $2 ${*:4}"
    mv out lines
}

# strays NUMBER: the addresses 10.0.0.N of so many tables of OUT that are of another group.
strays() {
    local i
    for ((i = 1; i <= $1; i++)); do
        sed -n "${i}p" out | ended "$program" list --keys "$many" | cut -d : -f 1 | sort -u |
            awk -F . -v groups="$1" -v group=$((i - 1)) '(10 * 2 ^ 24 + $4) % groups != group'
    done
}

# variant NAME CASES: $room/NAME, the program but for some commands, of which CASES says what is done first or instead.
variant() { printf '#!/bin/sh\ncase $1 in\n%s\nesac\nexec "%s" "$@"\n' "$2" "$program" >"$1" && chmod +x "$1"; }

# A program that tells when it starts, and takes its time; the run whose number the file held has waits until that is gone. Its
# parent is the worker: a job's shell, or a process of dask.
variant slow "save | merge)
    echo \$\$ \$PPID >>'$room/started'
    sleep 0.3
    while [ -s '$room/held' ] && [ \"\$(sed -n \"\$(cat '$room/held')s/ .*//p\" '$room/started')\" = \$\$ ]; do sleep 0.1; done 2>/dev/null ;;"

# Programs that give no table at each try: their memory runs out, or they are killed; one prints no table at all, one does so instead of
# a table, one joins none, one hangs, and one kills its worker.
variant starving "save) echo >>'$room/started'; echo nbt: memory >&2; exit 3 ;;"
variant killed '*) kill -9 $$ ;;'
variant echoing '*) echo "$@"; exit ;;'
variant lying 'save | merge) echo 4e42543200; exit ;;'
variant unjoining 'merge) exit 3 ;;'
variant hanging 'save) exec sleep 1000 ;;'
variant deadly 'save) kill -9 $PPID ;;'

# awaits COMMAND..: waits until a command goes well, for some minutes at most.
awaits() {
    for ((i = 0; i < 1000; i++)); do
        "$@" 2>/dev/null && return
        sleep 0.1
    done
}

# has_started NUMBER: whether so many runs of the slowed program began, the last of which goes on once the file held is gone.
has_started() {
    local runs
    mapfile -t runs <started && [ ${#runs[@]} -ge "$1" ]
}
has_ended() { ! kill -0 "$1"; }

# begins NUMBER WORD..: begins over `many`, in seven shards, and waits for its run of the program with this number.
begins() {
    : >started
    echo "$1" >held
    "${@:2}" many --shard-bytes 1400000 out >output 2>errors </dev/null &
    awaits has_started "$1"
}

# loses_worker WORD..: a worker is killed while it works.
loses_worker() {
    begins 4 ended "$@"
    kill -9 "$(sed -n '4s/.* //p' started)" && rm held && wait $! && cmp -s table out && [ ! -s errors ]
    count $? "$*, a worker killed: $(cat errors)"
    rm -rf held out
}

# loses_client WORD..: the client is killed while it works.
loses_client() {
    begins 4 "$@"
    kill -9 $! && rm held && ! wait $! 2>/dev/null && [ ! -e out ]
    count $? "$*, the client killed: nothing is there"
    rm -f held
    : >started
}

# refusals ENGINE: a line that is refused, programs that fail, after four tries, or print no table, and an OUT that stays.
refusals() {
    refuses 1 "nbt-dask: bad: line 4000 is malformed (shard g0000-000001)" "$1" "$program" bad --shard-bytes 1400000
    : >started
    refuses 3 "nbt-dask: gaps: lines * (shard g0000-00000?): *nbt: memory*" "$1" "$room/starving" gaps
    [ "$(wc -l <started)" -eq 4 ]
    count $? "$1 tries $(wc -l <started) times"
    refuses 3 "nbt-dask: gaps: lines * (shard g0000-00000?): *signal 9 ended the program*" "$1" "$room/killed" gaps
    keeps 3 "nbt-dask: gaps: lines * (shard g0000-00000?): *$room/echoing printed isn't a saved table*" "$1" "$room/echoing" --force gaps
    keeps 3 "nbt-dask: gaps: lines * (shard g0000-00000?): *$room/lying printed isn't a saved table*truncated*" "$1" "$room/lying" --force gaps
    refuses 3 "nbt-dask: a merge of 7 tables of group 0: *" "$1" "$room/unjoining" --shard-bytes 1400000 many
    cp bad kept && ends 2 "nbt-dask: kept is there, and is no saved table*" "$1" "$program" gaps kept && cmp -s bad kept
    count $? "$1: OUT is a capture: $(cat errors)"
    # The result itself too.
    keeps 2 "nbt-dask: out is there, and is a saved table: --force replaces it" "$1" "$program" --tables flow.table
    cp flow.table out
    gives gaps.table "$1" "$program" --tables gaps.table --force
    : >out
    gives gaps.table "$1" "$program" gaps
}

# captures ENGINE: captures that can't be cut, or aren't any, and tables that are too large for one.
captures() {
    refuses 1 "nbt-dask: ever: lines 1 to * has * bytes, *: keys live across *\(--by-source 3\)*\(nbt-look --lines --no-ticks\)*" "$1" "$program" ever
    refuses 1 'nbt-dask: * is a pcap file, and a capture is wanted: nbt-look --lines --no-ticks makes one of it' \
        "$1" "$program" "$here/../examples/office.pcap"
    refuses 3 'nbt-dask: nowhere: no such file' "$1" "$program" many nowhere
    refuses 1 'nbt-dask: 2 tables are left, of which no two can be merged:*' "$1" "$program" --tables small large small
    refuses 1 'nbt-dask: 2 tables are left, of which no two can be merged:* --by-source ?' "$1" "$program" wide
    refuses 1 'nbt-dask: a merge: nbt: full: there are more than 65535 keys. Cut by source address, *' "$1" "$program" keys
    # A malformed line in a group's shard that has ticks.
    sed '3990s/.*/138 0 xyz/' flow >torn
    refuses 1 'nbt-dask: torn: line 3990 is malformed (shard g0000-00000?)' "$1" "$program" --by-source 2 torn
    gives table "$1" "$program" --tables part.*.table
    grouped "$1" 3 '' wide
    # Comments make no difference, and go to all groups.
    sed '1~2i # a comment' flow >said
    grouped "$1" 3 flow.table --shard-bytes $((line + 1)) said
    grouped "$1" 3 flow.table --send --shard-bytes $((line + 1)) flow
}

# links ENGINE: an OUT that is a link, to a saved table or to nothing, stays, and what it leads to.
links() {
    local target
    for target in linked.table nothing; do
        cp flow.table linked.table && ln -s $target out
        ends 2 'nbt-dask: out is a link: it is left as it is, and so is what it leads to' "$1" "$program" --force gaps out &&
            [ "$(readlink out)" = $target ] && cmp -s flow.table linked.table && [ ! -e nothing ]
        count $? "$1: OUT is a link to $target: $(cat errors)"
        rm out
    done
}

# replaced ENGINE: a capture that is replaced by one of the same size and time has another table.
replaced() {
    cp gaps swapped && gives gaps.table "$1" "$program" swapped
    tac gaps | awk '/^138 / && !done { $3 = substr($3, 1, length($3) - 2) (substr($3, length($3) - 1) == "00" ? "01" : "00"); done = 1 } 1' |
        tac >swapping
    save <swapping >swapping.table && ! cmp -s gaps.table swapping.table && touch -r swapped swapping &&
        [ "$(stat -c '%s %Y' swapped)" = "$(stat -c '%s %Y' swapping)" ] && cp -p swapping swapped
    count $? 'a capture of the same size and time has another table'
    gives swapping.table "$1" "$program" swapped
}

# harmless ENGINE: a name whose bytes act on a terminal.
harmless() {
    ends 3 'nbt-dask: no\\x1b\[31m\\nsuch\\x9b\\u202e: no such file' "$1" "$program" $'no\e[31m\nsuch\x9b\xe2\x80\xae' out
    count $? "$1: a name that would act on a terminal: $(cat errors)"
    ends 2 '*nbt-dask: error: *--\\x1b\[31m' "$1" "$program" $'--\e[31m' gaps out
    count $? "$1: a word that would act on a terminal: $(cat errors)"
}

# full_disk PART ENGINE: a full disk: OUT's folder is one of 1 MiB.
full_disk() {
    mkdir -p disk
    if unshare -rm mount -t tmpfs none disk 2>/dev/null; then
        part "$1" fills_disk "$2"
    else
        skip "$1" 'no tmpfs can be mounted here'
    fi
}

fills_disk() {
    ends 0 'nbt-dask: disk/out: No space left on device' unshare -rm bash -c 'mount -t tmpfs -o size=1m none disk; echo 4e425432 >disk/out
        "$1" "$2" --force many disk/out; echo $?; cat disk/out; ls disk' - "$1" "$program" && printf '3\n4e425432\nout\n' | cmp -s - output
    count $? "$1: a full disk: $(cat errors)"
}

inputs() {
    local each
    python3 -S -E "$here/scale/scale_capture.py" many keys gaps flow ever wide "$room"
    sed '4000s/.*/138 0 xyz/' gaps >bad
    save <many >table
    split -C 5m many part.
    for each in part.*; do save <"$each" >"$each.table"; done
    head -n 9800 wide | save >large
    head -n 3400 wide | save >small

    # What `make install` puts there, the tools compiled.
    make -s -C "$here/.." -o build install PROGRAM="$program" LOOK="$look" DESTDIR="$room" PREFIX=/installed
    count $? 'make install'
    python3 -S -E -m compileall -q $tools/nbt_shards $tools/nbt_pcap
    save <gaps >gaps.table
    save <flow >flow.table
}

# shows_progress ENGINE: how many shards are done, on a terminal; it is gone at the end.
shows_progress() {
    ended "$here/lib/terminal.py" output "$1" "$room/slow" --shard-bytes 400000 gaps out >shown && cmp -s out gaps.table &&
        grep -q " [1-9] of 7 shards saved" shown && [[ $(cat shown) == *$'\r' ]]
    count $? "$1 on a terminal"
    rm -f out
    ended "$here/lib/terminal.py" output "$1" "$program" --quiet gaps out >shown && cmp -s out gaps.table && [ ! -s shown ]
    count $? "$1 --quiet on a terminal"
    rm -f out
}

with_dask() {
    export DASK_TEMPORARY_DIRECTORY=$room
    loses_client "$python" "$tools/nbt-dask" --workers 2 --program "$room/slow"
    # The installed program is the slowed one, dask's port is another program's, and what the killed client left, or a user set, makes no difference.
    mv installed/bin/nbt . && cp slow installed/bin/nbt
    takes_port
    PATH=$room/installed/bin:$PATH DASK_DISTRIBUTED__SCHEDULER__ALLOWED_FAILURES=0 loses_worker nbt-dask --workers 2 --send
    kill "$port" 2>errors
    mv nbt installed/bin
    refuses 3 'nbt-dask: ./nbt: no such program*' "$python" "$tools/nbt-dask" --workers 1 --program ./nbt many
    cluster
}

# Signals, closed streams, and workers that are killed at random moments: each run has its own workers, and ends.
with_signals() { counted "$here/scale/killed.py" "$python" "$tools/nbt-dask" "$program" "$room" "$1"; }

part inputs inputs
for python in python3 /usr/bin/python3 ''; do
    [ -n "$python" ] && "$python" -c 'import importlib.util, sys; sys.exit(not importlib.util.find_spec("distributed"))' 2>/dev/null && break
done
if [ -n "$python" ]; then
    part nbt-dask with_dask
    full_disk nbt-dask-disk ./nbt-dask
    part nbt-dask-ends cluster_ends
    part nbt-dask-signals with_signals signals
    part nbt-dask-kills with_signals kills
else
    for each in nbt-dask nbt-dask-disk nbt-dask-ends nbt-dask-signals nbt-dask-kills; do lacks $each python3-distributed; done
fi
finish
