# Read by tests/plugin.sh: its parts.

# with TOOL WORD.., without TOOL WORD..: a command of Wireshark with the plugin, and without it.
with() { ended "$room/with/$1" "${@:2}"; }
without() { ended "$room/without/$1" "${@:2}"; }

# same WANTED NAME: whether standard input is what is wanted.
same() {
    diff <(printf '%s\n' "$1") - >"$room/difference"
    count $? "$2: $(head -c 300 "$room/difference")"
}

# The plugin is made, put where Wireshark looks for it, and loaded; another version of Wireshark doesn't load it.
part_built() {
    local version
    "$top/tools/plugin" make "$library" "$room/nbt.so" 2>"$room/errors"
    count $? "tools/plugin make: $(head -n 1 "$room/errors")"
    nm -D --defined-only "$room/nbt.so" | awk '{ print $3 }' | grep -v '^plugin_describe$' | sort | xargs |
        same 'plugin_register plugin_version plugin_want_major plugin_want_minor' 'what nbt.so shows of itself'
    PLUGINS=$place "$top/tools/plugin" put "$room/nbt.so" | same "$place/nbt.so" 'tools/plugin put'
    chmod -R a+rX "$room/home-with"
    with tshark -G plugins 2>/dev/null | awk -F '\t' '$1 ~ /^nbt\.so *$/ { print $2, $3, $4 }' |
        same "$("$program" --version | cut -d ' ' -f 2) dissector $place/nbt.so" 'tshark -G plugins'
    with tshark -G fields 2>/dev/null | awk -F '\t' '$5 == "nbt" && $3 !~ /\.expert$/ { print $3 }' | sort >"$room/fields"
    sed -nE 's/^\| `(nbt\.[a-z_.]+)` \|.*/\1/p' "$top/docs/WIRESHARK.md" | grep -vE '^nbt\.(names|info|timer)$' | sort | diff - "$room/fields"
    count $? 'docs/WIRESHARK.md has the fields that there are'
    with tshark -G defaultprefs 2>/dev/null | sed -nE 's/^#?(nbt\.[a-z]+):.*/\1/p' | xargs | same 'nbt.names nbt.info nbt.timer' 'the preferences'
    [ "$(PLUGINS= HOME=/nowhere "$top/tools/plugin" folder | grep -c '/plugins/.*/epan$')" -eq 1 ]
    count $? 'tools/plugin folder'
    "$top/tools/plugin" put "$room/nowhere" 2>"$room/errors"
    [ $? -eq 2 ] && grep -q 'make wireshark builds it' "$room/errors"
    count $? 'tools/plugin put, of no file'
    refused_by_others
}

# The same sources for a later version: its number stands in a header.
refused_by_others() {
    local home=$room/home-other minor
    minor=$(pkg-config --modversion wireshark | cut -d . -f 2)
    mkdir -p "$room/other" "$home/${place#"$room/home-with/"}"
    sed -E "s/^(#define (WIRESHARK_)?VERSION_MINOR) .*/\\1 $((minor + 1))/" "$(pkg-config --variable=includedir wireshark)/wireshark/ws_version.h" >"$room/other/ws_version.h"
    CFLAGS="-O0 -I$room/other" "$top/tools/plugin" make "$library" "$home/${place#"$room/home-with/"}/nbt.so" 2>"$room/errors"
    count $? "tools/plugin make, by a later version's number: $(head -n 1 "$room/errors")"
    chmod -R a+rX "$home"
    sed "s|home-with|home-other|" "$room/with/tshark" >"$room/other/tshark" && chmod 755 "$room/other/tshark"
    cp "$top/examples/office.pcap" "$room"
    ended "$room/other/tshark" -n -r "$room/office.pcap" >"$room/output" 2>"$room/errors"
    without tshark -n -r "$room/office.pcap" 2>/dev/null | cmp -s - "$room/output" && grep -q "nbt.so.*was compiled for Wireshark\|compiled for" "$room/errors"
    count $? "another version of Wireshark doesn't load it: $(head -n 1 "$room/errors")"
}

# What is said of payloads, and of connections to port 139, is what nbt_brief says of their packets.
part_phrases() {
    NBT_LIBRARY=$library/libnbt.so.0 counted_by plugin/plugin_phrases.py "$room/with/tshark" "$room/states" 1500 40
    grep -v -e '^failed: ' -e ' passed, ' "$room/counted"
}

# What becomes of datagrams is what nbt replay reports, in captures that one process reads one after the other, and files after these.
part_states() {
    counted_by plugin/plugin_states.py "$room/with/sharkd" "$program" "$room/states" 48 \
        "$room"/states/{pieces,sessions,office,samba}.pcap
}

# The tool prints the same beside the plugin: it asks tshark for the bytes of these ports, by the same words for all its forms.
part_tools() {
    local kind
    with_tools "$program"
    mergecap -a -w "$room/both.pcap" "$room"/states/{office,samba}.pcap && chmod 644 "$room/both.pcap"
    for kind in with without; do
        # The tool gives tshark a home of its own.
        PATH=$room/$kind:$room/bin:$PATH ended nbt-look-tshark --json "$room/both.pcap" >"$room/$kind-output" 2>&1
    done
    [ -s "$room/with-output" ] && cmp -s "$room/with-output" "$room/without-output"
    count $? 'nbt-look-tshark --json, with the plugin and without it'
}

# places WORD..: where in its bytes the faults of marked.pcap are marked.
places() { with tshark -n -r "$room/states/marked.pcap" "$@" -T pdml 2>/dev/null | sed -nE 's/.*"nbt\.place".* size="1" pos="([0-9]+)".*/\1/p' | xargs; }

# What is left as it is, which bytes are marked, what a datagram of two fragments has in it, and what is counted.
part_shown() {
    local kind file=$room/states/marked.pcap
    for kind in with without; do $kind tshark -n -r "$room/states/office.pcap" >"$room/$kind-output" 2>/dev/null; done
    [ -s "$room/with-output" ] && cmp -s "$room/with-output" "$room/without-output"
    count $? 'the list is left as it is'
    places | same '54 38' 'bytes that are marked, in the frame and in segments that TCP joined'
    places -o tcp.desegment_tcp_streams:FALSE | same '54 72' 'bytes that are marked, in the second segment'
    with tshark -n -r "$room/states/overlaps.pcap" -o tcp.desegment_tcp_streams:FALSE -o tcp.analyze_sequence_numbers:FALSE -T fields \
        -e nbt.says 2>/dev/null | same $'begins a packet that lacks 42 bytes\n\n\ncalls FRED<20> as JOE<00>\nkeeps the session alive' \
        'of bytes that come again the first ones count'
    with tshark -n -2 -r "$room/states/gaps.pcap" -T fields -e nbt.missing 2>/dev/null | uniq | same \
        $'4 bytes from byte 0 on\nall from byte 2 on\n3 bytes from byte 2 on' 'pieces of no bytes split no gap'
    with tshark -n -r "$room/states/untimed.pcap" -T fields -e nbt.state 2>/dev/null | xargs | same 'kept kept delivered' 'frames without a time'
    with tshark -n -r "$file" -Y smb -o nbt.info:TRUE -T fields -e frame.number -e smb.cmd -e nbt.fragment -e _ws.col.Info 2>/dev/null |
        same $'5\t0x2b\t4,5\tgroup datagram from JOE<00> to FRED<20>, 19 bytes at offset 20, the last' \
            'SMB in a datagram of two fragments, whose phrase the Info column has'
    with tshark -n -q -r "$file" -z nbt,tree 2>/dev/null | awk -F '  +' '$2 ~ /^[0-9]+$/ { print $1 ": " $2 }' | sort >"$room/counts"
    sort <<'ROWS' | diff "$room/counts" -
Packets: 4
 Name service, port 137: 1
 Datagram service, port 138: 2
 Session service, port 139: 1
Refused: 2
 name: bad pointer: 1
 name: reserved label: 1
Fragments: 2
 kept: 1
 delivered: 1
ROWS
    count $? 'tshark -z nbt,tree'
    shown_aside
    shown_to_experts
}

# What the file has a part of, what isn't a payload, and what is written to another file.
shown_aside() {
    with tshark -n -r "$room/states/cut.pcap" -T fields -e nbt.says -z nbt,tree 2>/dev/null |
        awk -F '  +' '/^cut/ { print } /^Refused| by the snap/ { print $1 ": " $2 }' | sort |
        same $' Cut by the snap length: 3\nRefused: 0\ncut: 20 of 50 bytes\ncut: 20 of 50 bytes\ncut: asks for FRED<20>, 54 of 60 bytes' \
            'what the file has a part of'
    with tshark -n -r "$room/states/aside.pcap" -d udp.port==1137,nbns -T fields -e nbt.says 2>/dev/null |
        same $'\nasks for FRED<20>\n' 'of an ICMP error nothing is said, nor of port 445, but of a port that Decode As gives'
    with tshark -n -2 -r "$room/states/marked.pcap" -Y nbt.datagram -w - 2>/dev/null | capinfos -Tmcr - 2>/dev/null | cut -d , -f 2 |
        same 2 'what is written takes its fragments along'
}

# What experts are told of, by the fields that they are told for, where the names are none; and the Info column, if it has the phrases.
shown_to_experts() {
    local words=(-E separator=/t -E 'aggregator=;' -e_ws.col.Info
        -enbt.{says,refused,refused.expert,follow,follow.expert,state,state.expert,spoilt.expert,missing,missing.expert,names.expert})
    with tshark -n -2 -r "$room/all.pcap" -o nbt.info:TRUE -o 'nbt.names:NO<2' -T fields "${words[@]}" 2>/dev/null |
        awk -F '\t' 'function is(cell) { return cell != "" }
            { gsub(/;/, "; ", $2); for (cell = 4; cell <= 12; cell++) told[cell] += is($cell) }
            is($2) && $1 != $2 || is($3) != is($4) || is($5) != is($6) || ($7 == "refused" && !is($3)) != is($8) || ($7 == "spoilt") != is($9) ||
                is($11) > is($10) || ($7 ~ /kept|spoilt|delivered/) != is($12) { print "frame " NR }
            END { print told[4], told[6], told[8], told[9], told[11], told[12] }' |
        same '20 23 1 22 20 182' 'what experts are told, and the Info column'
}

# Changed captures, snap lengths, files that were joined, and filters, in one pass and in two: no crash, no link to a frame that isn't
# there or is of another key, and the same phrases, faults and states.
part_bad() { counted_by plugin/plugin_changed.py "$room/with/tshark" "$room/states" 4 "$room"/states/{office,samba,pieces,sessions}.pcap; }

# Errors of memory: none; and nothing is lost that the plugin asked for, by names that are kept after Wireshark let it go.
part_valgrind() {
    local ours checked='valgrind --leak-check=full --keep-debuginfo=yes --keep-stacktraces=alloc --num-callers=8'
    sed "s|HOME=|WIRESHARK_DEBUG_WMEM_OVERRIDE=simple G_SLICE=always-malloc HOME=|
        s|/usr/bin/tshark|$checked --log-file=$room/home-with/valgrind /usr/bin/tshark|" "$room/with/tshark" >"$room/with/checked"
    chmod 755 "$room/with/checked" && "$timeout" -k 5 600 "$room/with/checked" -n -2 -r "$room/all.pcap" -O nbt -o nbt.info:TRUE >"$room/output" \
        2>"$room/errors" && grep -q 'Fragment: ' "$room/output" && grep -q 'ERROR SUMMARY' "$room/home-with/valgrind"
    count $? "valgrind, with the plugin: $(tail -n 1 "$room/errors")"
    # Debug information has a source in the place of nbt.so.
    ours="nbt\.so|\(($(cd "$top/bindings/wireshark" && printf '%s|' *.c)nbt\.h):"
    ! grep -qE "$ours|Invalid (read|write)|uninitialised" "$room/home-with/valgrind"
    count $? "valgrind finds nothing in the plugin: $(grep -m 1 -B 5 -E "$ours" "$room/home-with/valgrind" | head -n 3 | tr '\n' ' ')"
}

# The samples of the page, with a tshark that has the plugin.
part_page() {
    ln -sf "$room/with/tshark" "$room/bin/tshark"
    EXAMPLES=$room/states page docs/WIRESHARK.md
}
