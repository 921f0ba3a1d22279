#!/usr/bin/env bash
# The plugin for Wireshark: what it is made of, that its phrases, faults and places are those of nbt_brief, its states those of
# `nbt replay`, that tools print the same beside it, changed and cut captures, valgrind, and the samples of its page. Usage:
# tests/plugin.sh [LIBRARY [PROGRAM [PART..]]]; its last line is 'N passed, M failed, K skipped'. LIBRARY is a folder with libnbt.a and
# libnbt.so.0, out/lib without it. Of its parts those that are named are run: each wants `built`, and `page` wants `tools` too. Where
# tshark or Wireshark's headers aren't installed all of it is left out.
set -uo pipefail
# What stands last in a pipe counts its cases here.
shopt -s lastpipe
. "$(dirname "$0")/lib/counting.sh"
# The package for Python begins with what is made of nbt.h.
"$here/../tools/lists.py" --made || exit
. "$here/plugin/plugin_cases.sh"
top=$(realpath "$here/..")
library=$(realpath "${1:-$top/out/lib}")
program=$(realpath "${2:-$top/crates/nbt/out/nbt}")

for each in tshark sharkd editcap pkg-config setpriv; do
    command -v $each >/dev/null && continue
    lacks all $each
    finish
    exit
done
if ! pkg-config --exists wireshark glib-2.0; then
    lacks all 'libwireshark-dev or libglib2.0-dev'
    finish
    exit
fi

# Wireshark loads a user's plugins for users alone, not for root: there nobody runs it. $room/with has the commands with the plugin,
# $room/without the same without it.
# They read none of Wireshark's own files, as its dictionaries of Diameter: those are a third of a start.
chmod 755 "$room"
export XDG_DATA_HOME=
as=(env -u XDG_CONFIG_HOME -u WIRESHARK_CONFIG_DIR WIRESHARK_DATA_DIR="$room/none")
[ "$(id -u)" -ne 0 ] || as=(setpriv --reuid=65534 --regid=65534 --clear-groups "${as[@]}")
commands() {
    local kind tool
    for kind in with without; do
        mkdir -p "$room/$kind" "$room/home-$kind" "$room/states"
        chmod 777 "$room/home-$kind" "$room/states"
        for tool in tshark sharkd; do
            printf '#!/bin/sh\nexec %s HOME=%s %s "$@"\n' "${as[*]}" "$room/home-$kind" "$(command -v $tool)" >"$room/$kind/$tool"
            chmod 755 "$room/$kind/$tool"
        done
    done
    place=$(HOME=$room/home-with "$room/with/tshark" -G folders 2>/dev/null | sed -n 's/^Personal Plugins:[[:space:]]*//p')/epan
}
commands
cp "$top"/examples/*.pcap "$room/states"
"$here/plugin/plugin_files.py" "$room/states"
editcap -r "$room/states/pieces.pcap" "$room/front.pcap" 1-200
mergecap -a -w "$room/all.pcap" "$room/front.pcap" "$room"/states/{sessions,overlaps,gaps}.pcap
chmod 644 "$room"/{,states/}*.pcap

for each in built phrases states tools shown bad valgrind page; do
    [ $# -lt 3 ] || [[ " ${*:3} " == *" $each "* ]] || continue
    part $each part_$each
done
if [ $# -lt 3 ]; then finish; else total; fi
