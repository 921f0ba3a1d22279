#!/usr/bin/env bash
# The plugin with the Wireshark of another release of Debian: tests/plugin.sh in a root that mmdebstrap makes of it and removes again, and
# each side's plugin given to the other's tshark, which must not load it. Usage, as root: tests/plugin/plugin_elsewhere.sh [SUITE [LIBRARY [PROGRAM
# [PART..]]]]. SUITE is trixie without it; the others are those of tests/plugin.sh. Its last line is 'N passed, M failed, K skipped'.
set -uo pipefail
. "$(dirname "$0")/../lib/counting.sh"
top=$(realpath "$here/..")
suite=${1:-trixie}
library=$(realpath "${2:-$top/out/lib}")
program=$(realpath "${3:-$top/crates/nbt/out/nbt}")
parts="${*:4}"
packages=tshark,libwireshark-dev,libglib2.0-dev,gcc,libc6-dev,pkg-config,python3,valgrind,libc6-dbg

# version: of the tshark that runs here. refuses PLUGIN: whether a tshark here says that it can't load it, and runs on.
cat >"$room/common" <<'COMMON'
version() { tshark --version 2>/dev/null | head -n 1; }
refuses() {
    export HOME=$room/home
    mkdir -p "$HOME" && place=$(tshark -G folders 2>/dev/null | sed -n 's/^Personal Plugins:[[:space:]]*//p')/epan
    install -D -m 644 "$1" "$place/nbt.so" && chown -R 65534:65534 "$HOME"
    setpriv --reuid=65534 --regid=65534 --clear-groups tshark -n -r "$room/office.pcap" 2>&1 >"$room/list" | grep "plugin.*nbt\.so" && [ -s "$room/list" ]
}
COMMON
cat >"$room/there" <<'THERE'
cd /nbt && room=/nbt/room && . room/common
version >room/version
tools/plugin make library room/there.so && refuses room/here.so >room/said || : >room/said
tests/plugin.sh library program "$@"
THERE

"$top/tools/plugin" make "$library" "$room/here.so"
count $? 'tools/plugin make, here'
cp "$top/examples/office.pcap" "$room"
chmod 755 "$room"
# shellcheck disable=SC2016
env parts="$parts" top="$top" library="$library" program="$program" room="$room" unshare --mount --propagation private mmdebstrap --quiet --mode=root \
    --variant=apt --aptopt='Acquire::Retries "3"' --include=$packages \
    --customize-hook='mkdir -p "$1/nbt/room" && cd "$top" && cp -r bindings docs examples include tests tools "$1/nbt" &&
        mkdir -p "$1/nbt/crates/nb_examples" && cp -r crates/nb_examples/examples "$1/nbt/crates/nb_examples" &&
        cp -rL "$library" "$1/nbt/library" && cp "$program" "$1/nbt/program" && cp "$room"/here.so "$room"/office.pcap "$room"/common "$room"/there "$1/nbt/room"' \
    --customize-hook='chroot "$1" bash /nbt/room/there $parts | tee "$room/output"; cp "$1"/nbt/room/there.so "$1"/nbt/room/said "$1"/nbt/room/version "$room"' "$suite" /dev/null
count $? "a root of $suite"
echo "$(cat "$room/version"), beside $(. "$room/common" && version)"
counts='([0-9]+) passed, ([0-9]+) failed, ([0-9]+) skipped'
[[ $(tail -n 1 "$room/output") =~ $counts ]]
count $? 'tests/plugin.sh has a last line there'
passed=$((passed + ${BASH_REMATCH[1]:-0})) failed=$((failed + ${BASH_REMATCH[2]:-0})) skipped=$((skipped + ${BASH_REMATCH[3]:-0}))
[ -s "$room/said" ]
count $? "what is built here isn't loaded there"
(. "$room/common" && refuses "$room/there.so")
count $? "what is built there isn't loaded here"
total
