#!/usr/bin/env bash
# tools/nbt-look-tshark: what it prints of captures, by the samples of tests/look/cases.txt, beside tshark and beside an independent reading, and of
# what isn't one. Usage: tests/look.sh [PROGRAM [PART..]]; its last line is 'N passed, M failed, K skipped'. Of its parts those that are named
# are run. Where tshark isn't installed all of it is left out.
set -uo pipefail
. "$(dirname "$0")/lib/counting.sh"
only=${*:2}
of_tools "${1:-}"

# What the samples have at hand: captures, the tool apart from this repository, and commands. Python compiles once.
prepared() {
    export PYTHONPYCACHEPREFIX=$room/compiled KEPT=$room TSHARK="$(command -v tshark)"
    (cd "$here/../tools" && PYTHONDONTWRITEBYTECODE='' python3 -c "import logging, queue$(printf ', %s' nbt_*/[a-z]*.py | sed 's/\.py//g; s|/|.|g')")
    ln -s "$here/look/tshark.sh" "$room/bin/tshark"
    mkdir "$files/elsewhere"
    "$here/captures/look_captures.py" "$files"
    cp -r "$here"/../tools/{nbt_look,nbt_pcap,nbt_shards,nbt-look-tshark} "$files/elsewhere"
    echo '<p><script type="application/octet-stream" id="given" data-name=""></script>' >"$files/elsewhere/nbt.html"
    printf 'no\tcapture\n' >"$files/other"
    nbt-look-tshark "$here/../examples/office.pcap" >"$files/list"
    nbt-look --lines --quiet "$here/../examples/office.pcap" >"$files/capture"
    # numbers: those of the frames of a list. terminal COLUMNS COMMAND..: what a command shows on a terminal of so many columns.
    printf '#!/bin/sh\nawk '\''/^ *[0-9]+ +[-0-9.]+ / { printf "%%s%%s", between, $1; between = " " } END { if (between) print "" }'\''\n' >"$room/bin/numbers"
    printf '#!/bin/sh\nexec "%s/lib/terminal.py" --columns="$@" | tr -d "\\r"\n' "$here" >"$room/bin/terminal"
    chmod +x "$room/bin/numbers" "$room/bin/terminal"
}

# cases PART: its samples.
cases() { counted_by lib/samples.py "$files" "$here/look/cases.txt" "$1" VERSION="$(nbt --version)"; }

# Stations that Samba makes: the whole of a capture, what snap lengths leave of it, and what is left where frames are missing.
samba() {
    local length
    for length in 54 96 200; do editcap -s $length "$here/../examples/samba.pcap" "$room/samba-$length.pcap"; done
    editcap "$here/../examples/samba.pcap" "$room/samba-gaps.pcap" 30-40 113 137
    counted_by look/beside_tshark.py "$here"/../examples/{office,samba}.pcap "$room"/samba*.pcap
    cases samba
}

# What makes a row of each table, by docs/SUMMARY.md.
summaries() { counted_by look/summary.py "$program"; }

# Random captures, ten in one file.
random() { counted_by look/beside_tshark.py 1; }

# By the system's Python, for which Debian has rich: the others have none.
colours() {
    mkdir "$room/system" && ln -s /usr/bin/python3 "$room/system"
    PATH=$room/system:$PATH PYTHONPYCACHEPREFIX='' cases colours
}

# A file three times as long takes little more memory, so many kB: a summary some 10,000, for queries between other pairs of stations.
growing() {
    local each small large
    for each in 10000 30000; do "$here/captures/big_pcap.py" $each "$room/$each.pcap"; done
    for each in '12000 ' '14500 --summary' '12000 --json'; do
        small=$(peak nbt-look-tshark ${each#* } --quiet "$room/10000.pcap") large=$(peak nbt-look-tshark ${each#* } --quiet "$room/30000.pcap")
        [ "${small% *}" = 0 ] && [ "${large% *}" = 0 ] && [ "${large#* }" -lt $((${small#* } + ${each% *})) ] && [ "${large#* }" -lt 150000 ]
        count $? "nbt-look-tshark ${each#* }, peak of memory: $small and $large"
    done
}

# Packets of the loopback interface, as they come, and Ctrl-C.
live() {
    if ! ended tshark -i lo -a duration:0 >"$room/output" 2>&1; then
        skipped=$((skipped + 1))
        echo 'skipped: nbt-look-tshark -i lo, 1 case (tshark may not listen to lo here)'
        return
    fi
    (sleep 2; for each in {0..17}; do printf abc >/dev/udp/127.0.0.1/$((137 + each % 2)); sleep 0.5; done) &
    timeout --preserve-status -s INT 12 nbt-look-tshark -i lo --host 127.0.0.1 >"$room/output" 2>"$room/errors"
    [ $? -eq 0 ] && [ "$(cat "$room/errors")" = 'nbt-look-tshark: listening on lo; Ctrl-C ends it' ] &&
        [ "$(grep -c 'refused: truncated' "$room/output")" -ge 2 ] &&
        grep -qxE '([0-9]+) frames, \1 packets, \1 malformed, 0 left out; \1 shown' "$room/output"
    count $? "nbt-look-tshark -i lo: $(cat "$room/errors" "$room/output")"
    wait
}

prepared
for each in list filters objects summary tables words programs early guesses frames cut pages bad terminals; do part $each cases $each; done
parts samba summaries random growing live
if /usr/bin/python3 -c 'import rich' 2>/dev/null; then part colours colours; else lacks colours python3-rich; fi
finish
