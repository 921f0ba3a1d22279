#!/usr/bin/env bash
# The picture of docs/GUIDE.md: Wireshark with the plugin, and a refused packet chosen. It needs Debian's wireshark, xvfb,
# xdotool and imagemagick. Usage: tests/plugin/plugin_picture.sh PLUGIN PNG
set -euo pipefail
here=$(cd "$(dirname "${BASH_SOURCE[0]}")" && pwd)
plugin=$(realpath "$1")
picture=$(realpath -m "$2")
room=$(mktemp -d)
started=()
trap '[ ${#started[@]} -eq 0 ] || kill "${started[@]}" 2>/dev/null; sleep 1; rm -rf "$room"' EXIT
chmod 755 "$room"
width=1100 height=620
export HOME=$room/home DISPLAY=:97
mkdir -p "$HOME/.config/wireshark"

# The capture: a session that is opened and a name that is claimed, asked for, and asked for by a pointer that leads nowhere.
PYTHONPATH=$here:$here/../lib python3 - "$room/refused.pcap" <<'FRAMES'
import sys
from plugin_pcap import datagram_frame, segment_frame
from wire import CLIENT, DATAGRAM, POSITIVE, QUERY, REQUEST, RESPONSE, SERVER, pcap, spaced, written

# A query whose name begins with a pointer to itself.
REFUSED = QUERY[:12] + b'\xc0\x0c' + QUERY[46:]
written(sys.argv[1], pcap(spaced((datagram_frame(137, QUERY), datagram_frame(137, RESPONSE, SERVER), segment_frame(1_024, 1, REQUEST),
                                  segment_frame(1_024, 1, POSITIVE, source=SERVER, target=CLIENT), datagram_frame(138, DATAGRAM),
                                  datagram_frame(137, REFUSED)), 100_000)))
FRAMES
place=$(tshark -G folders 2>/dev/null | sed -n 's/^Personal Plugins:[[:space:]]*//p')/epan
install -D -m 644 "$plugin" "$place/nbt.so"
printf '%s\n' 'nbt.info: TRUE' 'gui.update.enabled: FALSE' 'gui.column.format: "No.", "%m", "Source", "%s", "Protocol", "%p", "Info", "%i"' \
    >"$HOME/.config/wireshark/preferences"
printf '%s\n' 'gui.geometry_main_x: 0' 'gui.geometry_main_y: 0' "gui.geometry_main_width: $width" "gui.geometry_main_height: $height" \
    >"$HOME/.config/wireshark/recent_common"
as=()
if [ "$(id -u)" -eq 0 ]; then
    chown -R 65534:65534 "$HOME"
    as=(setpriv --reuid=65534 --regid=65534 --clear-groups)
fi
Xvfb $DISPLAY -screen 0 ${width}x${height}x24 >"$room/xvfb" 2>&1 &
started+=($!)
sleep 3
XDG_RUNTIME_DIR=$HOME "${as[@]}" wireshark -n -r "$room/refused.pcap" -g 6 >"$room/wireshark" 2>&1 &
started+=($!)
sleep "${SECONDS_TO_WAIT:-25}"

# The last tree of the frame is opened, and the place of its fault is chosen: the bytes pane marks it.
xdotool mousemove ${LAST_TREE:-100 440} click 1
sleep 1
xdotool key Right Down Down Down
sleep 3
import -window root -colors 64 "PNG8:$picture"
