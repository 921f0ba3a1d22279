#!/usr/bin/env bash
# The built program beside Wireshark: what `nbt build` makes, as tshark dissects it, and a network's packets, as `nbt
# show` has them, by way of tools/nbt-cap2pcap and nbt-look --lines. Usage: tests/wireshark.sh [PROGRAM [PART..]]; its last line is
# 'N passed, M failed, K skipped'. Of its parts those that are named are run. Where tshark isn't installed all of it is left out.
set -uo pipefail
. "$(dirname "$0")/lib/counting.sh"
only=${*:2}
of_tools "${1:-}"

# The tools, beside what Python makes of their modules once, and what the samples of tests/wireshark/cases.txt have at hand.
tools=$room/tools
mkdir "$tools" "$files/bare"
cp -r "$here"/../tools/{nbt-cap2pcap,nbt_pcap} "$tools"
env -u PYTHONDONTWRITEBYTECODE python3 -m compileall -q "$tools/nbt_pcap"
ln -sf "$tools/nbt-cap2pcap" "$room/bin"
ln -s "$tools" "$files/tools"
ln -s "$(command -v cat)" "$(command -v env)" "$(python3 -c 'import sys; print(sys.executable)')" "$files/bare"

# cases PART: its samples.
cases() { counted_by lib/samples.py "$files" "$here/wireshark/cases.txt" "$1"; }

nbt() { ended "$program" "$@"; }

# The packets of `nbt build`, in one file, as tshark dissects them: rows of tests/wireshark/dissected.txt have these fields, no empty ones
# and not the words that it adds to a name's text; of more than 32 bytes the first eight. nbt-look has the same lines of the file again.
built() {
    local rows=$here/wireshark/dissected.txt label longest fields wanted found
    label=$(printf 'L%.0s' {1..63}) longest=$label.$label.$label.${label:0:28}
    fields=$(printf -- '-e %s ' _ws.malformed _ws.col.Protocol nbss.continuation_data nbns.{id,flags,name,type,class,ttl,nb_flags,addr} \
        nbdgm.{type,flags,dgram_id,src.ip,src.port,dgram_len,pkt_offset,source_name,destination_name,error_code} \
        nbss.{type,flags,length,called_name,calling_name,error_code,retarget_ip_address,retarget_port} data.data)
    sed -n 's/^\* \(.*\) => .*/nbt build \1/p' "$rows" | label=$label longest=$longest bash >"$room/lines"
    nbt-cap2pcap <"$room/lines" >"$room/built.pcap"
    count $? 'nbt-cap2pcap: the packets that were built'
    nbt-look --lines --bare --quiet "$room/built.pcap" | cmp -s - "$room/lines"
    count $? 'nbt-look --lines: the packets that were built'
    tshark -n -r "$room/built.pcap" -o tcp.reassemble_out_of_order:TRUE -Y 'nbns || nbdgm || nbss' -T fields $fields 2>"$room/errors" |
        sed -E 's/^(\t[^\t]*\t)([^\t])/\1continued\t\2/; s/ \([A-Z][^)]*\)//g; s/\b([0-9a-f]{16})[0-9a-f]{49,}\b/\1../g
            s/\t+/ /g; s/^ | $//g' >"$room/found"
    while IFS=$'\t' read -r wanted found; do
        [ "$wanted" = "$found" ]
        count $? "tshark on nbt build: $found, not $wanted"
    done < <(sed -n "s/\$longest/$longest/g; s/\$label/$label/g; s/.*=> //p" "$rows" | paste - "$room/found")
}

# ---- What a snap length leaves of payloads, by --cut. The 16 frames of examples/office.pcap have 28 bytes before a payload of UDP; in one file
# all stand as the first length leaves them, then as the next one does.

snapped() {
    local lengths=(28 29 40 90 300) at
    "$here/../examples/office.sh" >"$room/whole"
    for at in "${!lengths[@]}"; do
        : >"$room/cut.$at"
        editcap -s "${lengths[at]}" "$here/../examples/office.pcap" "$room/snapped.$at"
    done
    mergecap -a -w "$room/snapped.pcap" "$room"/snapped.?
    nbt-look --lines --cut --no-ticks --quiet "$room/snapped.pcap" | awk -v cut="$room/cut." '
        /^# frame [0-9]+ [0-9]/ { at = int(($3 - 1) / 16) }
        /^13[78]/ { print >(cut at) }'
    for at in "${!lengths[@]}"; do
        awk -v size=$((2 * (lengths[at] - 28))) '/^13[78]/ && size { print $1, $2, substr($3, 1, size) }' "$room/whole" | cmp -s - "$room/cut.$at"
        count $? "nbt-look --lines --cut: ${lengths[at]} bytes of each frame"
    done
}

# A network's packets, by tests/captures/network.py.
network() {
    "$here/captures/network.py" "$files/network.pcap" >"$files/expected"
    cases network
}

# ---- Packets of the loopback interface.

# thrice NAME COMMAND..: a command that other work on this machine may be in the way of: it has three tries, the last of its words being how many
# times as long it then has.
thrice() {
    local times
    for times in 1 3 9; do
        "${@:2}" $times && break
        wait
    done
    count $? "$1: $(cat "$room/errors")"
    wait
}

# sends NUMBER: a datagram that has it, over the loopback interface.
sends() {
    env printf %b "$(nbt build group "10.0.0.5:138/$1" 'JOE<00>' 'FRED<20>' 00 1 | sed 's/.* //; s/../\\x&/g')" >/dev/udp/127.0.0.1/138
}

# answered CAPTURE ANSWER: of what the one prints the other names each datagram within a second, once one is heard; both end well.
answered() {
    local number tries=80 named="$room/output" capture answer
    rm -f "$room/lines"
    mkfifo "$room/lines"
    eval "exec ${2:?}" <"$room/lines" >"$named" 2>"$room/errors" & answer=$!
    eval "exec ${1:?}" >"$room/lines" & capture=$!
    while sends 0000 && sleep 0.25 && ! grep -q /0000 "$named" && [ $((tries -= 1)) -gt 0 ]; do :; done
    for number in 0001 0002 0003 0004 0005; do
        sends $number
        sleep 1
        grep -q "10.0.0.5:138/$number " "$named" || echo "no answer to $number" >>"$room/errors"
    done
    kill -TERM $capture
    wait $capture && wait $answer && [ ! -s "$room/errors" ]
}

# answers CAPTURE COMMAND: by a command that reads captures as they grow.
answers() { thrice "$1 | nbt $2" answered "$1" "'$program' $2"; }

# Packets that come from tcpdump by a pipe, which ends with tcpdump.
dumped() {
    if ! command -v tcpdump >/dev/null; then
        lacks dumped tcpdump
    elif ! timeout --preserve-status -s INT 1 tcpdump -i lo -w - >"$room/output" 2>"$room/errors"; then
        skip dumped 'tcpdump may not listen to lo here'
    else
        answers "bash -c \"exec tcpdump -i lo --immediate-mode -U -w - udp port 138 2>'$room/dump' \
            > >(exec '$look' --lines --quiet -)\"" "replay 'FRED<20>'"
    fi
}

parts built snapped network
for each in others office long waits; do part $each cases $each; done
parts dumped
part page page docs/CAPTURES.md
finish
