#!/usr/bin/env bash
# The merge gate: rt ci, and then the scripts over what it built. Its last lines say what each step took of the processors, what was
# left out and what failed, and the last one counts all cases: 'N passed, M failed, K skipped'.
set -uo pipefail
cd "$(dirname "$0")/.." || exit
. tests/lib/counting.sh
log=$room/log
running=
trap '[ -z "$running" ] || kill "$running"; exit 130' INT TERM

digits='(0|[1-9][0-9]{0,8})'
last_line="^$digits passed, $digits failed(, $digits skipped)?\$"

# watched MINUTES COMMAND..: runs a command, shows what it prints as it comes, and keeps that in $log. Its status is 124
# where it doesn't end in time.
watched() {
    local status
    : >"$log"
    timeout -k 30 "$1m" "${@:2}" </dev/null >"$log" 2>&1 &
    running=$!
    tail -n +1 -f -s 0.1 --pid=$running "$log" &
    { wait $running; } 2>/dev/null
    status=$?
    running=
    wait
    return $status
}

# noted KIND NAME: what a step printed as skipped, or as failed: the first twenty lines, each with the step's name.
noted() {
    sed -nE "s/^(rt: )?($1|${1^^}): (.{1,200}).*/$1: $2: \3/p" "$log" | awk -v head="$1: $2" '
        NR <= 20
        END { if (NR > 20) print head ": and " NR - 20 " more" }'
}

# look_at_clock: puts the processor seconds of all that ended so far in $spent.
spent=0
look_at_clock() {
    times >"$room/times"
    spent=$(awk -F '[ms ]+' 'END { printf "%d", $1 * 60 + $2 + $3 * 60 + $4 }' "$room/times")
}

# step NAME MINUTES LEAST COMMAND..: runs a step, and adds the counts of its last line. It fails by itself where it doesn't end,
# ends otherwise than its counts say, or has fewer cases than LEAST.
step() {
    local name=$1 status counts=(0 0 0) why='' before=$spent
    watched "$2" "${@:4}"
    status=$?
    if [ $status -eq 124 ]; then
        why="it didn't end within $2 minutes"
    elif [[ $(tail -n 1 "$log") =~ $last_line ]]; then
        counts=("${BASH_REMATCH[1]}" "${BASH_REMATCH[2]}" "${BASH_REMATCH[4]:-0}")
        [ "${counts[1]}" -gt 0 ] || why=$(missing "$3" $((counts[0] + counts[2])) $status)
    else
        why="its last line has no counts, status $status"
    fi
    passed=$((passed + counts[0]))
    failed=$((failed + counts[1]))
    skipped=$((skipped + counts[2]))
    [ -z "$why" ] || failed=$((failed + 1))
    look_at_clock
    echo "$name: $((spent - before)) processor seconds" >>"$room/costs"
    noted skipped "$name" >>"$room/skips"
    noted failed "$name" >"$room/failure"
    if [ "${counts[1]}" -gt 0 ] && [ ! -s "$room/failure" ]; then why='what its last lines say'; fi
    if [ -n "$why" ]; then
        tail -n 5 "$log" | cut -c 1-200 | sed 's/^/    /'
        echo "failed: $name: $why"
    fi >>"$room/failures"
    cat "$room/failure" >>"$room/failures"
}

# missing LEAST CASES STATUS: why a step without failed cases went wrong nevertheless, if it did.
missing() {
    if [ "$3" -ne 0 ]; then
        echo "no case failed, and its status is $3"
    elif [ "$1" -eq 0 ] || [ "$2" -lt "$1" ]; then
        echo "$2 cases, of $1 at least (tests/counts.txt)"
    fi
}

# How many checks `rt ci` runs side by side: one for each processor, where there are 4 GB for each. By itself it expects more
# memory than they take, and leaves processors idle.
checks=$(awk -v most="$(nproc)" '$1 == "MemAvailable:" {
    checks = int($2 / 4000000)
    print checks < 1 ? 1 : checks < most ? checks : most
}' /proc/meminfo)

# How many crates there are to prove: those that lie here, or as many as are stated.
proofs=$(grep -c '^[a-z]' crates.txt)
stated=$(least rt all)

step rt 170 $((proofs > stated && stated > 0 ? proofs : stated)) env RT_JOBS="$checks" tests/lib/costs.py rt ci
step wrong_bodies.py 120 "$(least wrong_bodies.py all)" env RT_JOBS="$checks" tests/wrong_bodies.py
for each in program.sh process.py examples.sh wireshark.sh look.sh look_program.py look_lines.py look_files.py look_traffic.py manual.sh; do
    step $each 20 "$(least $each all)" "tests/$each"
done
step library.sh 40 "$(least library.sh all)" env AFTER_RT_CI=1 MODULE="$room/nbt.bc" tests/library.sh
step targets.sh 20 "$(least targets.sh all)" env MODULE="$room/nbt.bc" OUT="$room/out" tests/targets.sh
step page.py 20 "$(least page.py all)" tests/page.py "$room/out"
step plugin.sh 40 "$(least plugin.sh all)" tests/plugin.sh "$room/out/lib"
step scale.sh 20 "$(least scale.sh all)" tests/scale.sh
step bench.py 30 "$(least bench.py all)" tests/bench.py --small
cat "$room/costs"
echo "$((spent / 60)) processor minutes on $(nproc) processors"
cat "$room/skips" "$room/failures"
echo "$passed passed, $failed failed, $skipped skipped"
[ "$failed" -eq 0 ]
