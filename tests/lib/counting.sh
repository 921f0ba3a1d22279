# Read by the scripts of tests/: a room for their files, a limit on the time of what they start, the count of their cases,
# which tests/counts.txt has the least of, and the last line, 'N passed, M failed, K skipped'. $here is the folder tests/, $look the
# built nbt-look, which LOOK names.
here=$(cd "$(dirname "${BASH_SOURCE[0]}")/.." && pwd)
look=$(realpath -m "${LOOK:-$here/../crates/nbt_look/out/nbt_look}")
script=$(basename "$0")
room=$(mktemp -d)
trap 'rm -rf "$room"' EXIT
passed=0
failed=0
skipped=0

# python3 by its own place, and without the packages beside it: what its version is chosen by, and what such packages do at each start, may take
# several times as long as the start itself.
mkdir "$room/python"
ln -s "$(python3 -c 'import os, sys; print(os.path.realpath(sys.executable))')" "$room/python/python3"
printf 'home = %s\ninclude-system-site-packages = false\n' "$(dirname "$(realpath "$room/python/python3")")" >"$room/python/pyvenv.cfg"
PATH=$room/python:$PATH

# limit NAME: a limit of include/nbt.h. many: as many keys as a command takes.
limit() { sed -n "s/^#define NBT_$1 //p" "$here/../include/nbt.h"; }
many=$(limit MOST_KEYS)

# count STATUS NAME: one case more, which went well if the status is 0.
count() {
    if [ "$1" -eq 0 ]; then
        passed=$((passed + 1))
    else
        failed=$((failed + 1))
        echo "failed: $2"
    fi
}

# ended COMMAND..: runs a command, whose status is 124 or 137 where it doesn't end within two minutes, or PATIENCE seconds.
timeout=$(command -v timeout)
ended() { "$timeout" -k 5 "${PATIENCE:-120}" "$@"; }

# least SCRIPT PART: how many cases a part of a script has at least, or `all` of it; 0 where tests/counts.txt doesn't say it.
least() {
    awk -v script="$1" -v part="$2" '
        $1 == script && (part == "all" || $2 == part) { sum += $3 }
        END { print sum + 0 }' "$here/counts.txt"
}

# enough NUMBER LEAST NAME: fails where there are fewer cases than stated, or nothing is stated.
enough() {
    [ "$2" -gt 0 ] && [ "$1" -ge "$2" ] || count 1 "$3: $1 cases, of $2 at least (tests/counts.txt)"
}

# part NAME COMMAND..: runs the cases of a part, and prints how many there are; where $only has names, those of these parts alone.
part() {
    [ -z "${only:-}" ] || [[ " $only " == *" $1 "* ]] || return 0
    local before=$((passed + failed + skipped)) number
    "${@:2}"
    number=$((passed + failed + skipped - before))
    echo "$number cases: $1"
    enough $number "$(least "$script" "$1")" "$1"
}

# parts NAME..: the parts whose cases are run by functions of their names.
parts() {
    local name
    for name; do part "$name" "$name"; done
}

# skip PART WHY: leaves out the cases of a part.
skip() {
    local number
    number=$(least "$script" "$1")
    skipped=$((skipped + number))
    echo "skipped: $1, $number cases ($2)"
}

# lacks PART TOOL: leaves out a part for want of a tool. In CI, which installs it, that is a failure too.
lacks() {
    skip "$1" "$2 isn't installed"
    [ "${CI:-}" != true ] || count 1 "$1: CI has to install $2"
}

# compile SHIM..: what stands before the C library in some cases, $room/SHIM.so.
compile() {
    local shim
    for shim; do
        ${CC:-cc} -shared -fPIC -O1 -o "$room/$shim.so" "$here/lib/$shim.c" -ldl
        count $? "tests/lib/$shim.c is compiled"
    done
}

# counted COMMAND..: the cases of a command whose last line is 'N passed, M failed', perhaps with ', K skipped'.
counted() {
    local counts='^([0-9]{1,9}) passed, ([0-9]{1,9}) failed(, ([0-9]{1,9}) skipped)?$'
    "$@" >"$room/counted"
    if [[ $(tail -n 1 "$room/counted") =~ $counts ]]; then
        passed=$((passed + BASH_REMATCH[1]))
        failed=$((failed + BASH_REMATCH[2]))
        skipped=$((skipped + ${BASH_REMATCH[4]:-0}))
        grep -E '^(failed|skipped): ' "$room/counted"
    else
        count 1 "$1 has no last line"
    fi
}

# counted_by SCRIPT WORD..: those of a script of tests/.
counted_by() { counted "$here/$1" "${@:2}"; }

# with_tools PROGRAM: $room/bin has the programs and the tools that read a pcap, and the one that leads back. tshark has no user's settings.
with_tools() {
    mkdir "$room/bin" && ln -s "$(realpath "$1")" "$room/bin/nbt" && ln -s "$look" "$room/bin/nbt-look"
    ln -s "$(realpath "$here/../tools")"/nbt-{look-tshark,cap2pcap} "$room/bin"
    export WIRESHARK_CONFIG_DIR=$room/settings
}

# of_tools PROGRAM: the same for a script of these tools, whose samples run in $files, which has this repository, an empty file and the examples;
# the page has some modules of theirs. Where tshark isn't installed all of the script is left out.
of_tools() {
    "$here/../tools/lists.py" --made || exit
    program=$(realpath "${1:-$here/../crates/nbt/out/nbt}") files=$room/files
    if ! command -v tshark >/dev/null; then
        lacks all tshark
        finish
        exit
    fi
    with_tools "$program"
    PATH=$room/bin:$PATH
    mkdir "$files"
    ln -s "$(realpath "$here/..")" "$files/top"
    ln -s top/examples "$files/examples"
    : >"$files/empty"
}

# peak TOOL WORD..: the status of a tool of tools/ and its most memory, in kB; that of tshark and nbt comes from other processes.
peak() {
    PYTHONPATH=$here/../tools ended python3 -c 'import resource, runpy, sys
sys.argv = sys.argv[1:]
try:
    runpy.run_path(sys.argv[0], run_name="__main__")
except SystemExit as end:
    print(end.code, resource.getrusage(resource.RUSAGE_SELF).ru_maxrss, file=sys.stderr)' "$here/../tools/$1" "${@:2}" 2>&1 >"$room/output" | tail -n 1
}

# page FILE: the console samples of a page, where each command prints the lines after it. They run in a folder of their
# own, which has the folder examples too, or what EXAMPLES names, with the commands of $room/bin.
page() {
    mkdir "$room/page"
    ln -s "$(realpath "${EXAMPLES:-$here/../examples}")" "$room/page/examples"
    PATH=$room/bin:$PATH counted_by lib/samples.py "$room/page" "$here/../$1"
    rm -r "$room/page"
}

# The last line of a script, and its status.
total() {
    echo "$passed passed, $failed failed, $skipped skipped"
    [ "$failed" -eq 0 ]
}

# Ends the script with its last line.
finish() {
    [ -n "${only:-}" ] || enough $((passed + failed + skipped)) "$(least "$script" all)" all
    total
}
