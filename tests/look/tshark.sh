#!/bin/sh
# tshark, which reads a file once: asked the same of the same bytes, over no settings, it says again what it said where all was well.
# TSHARK is where it is, KEPT a folder; the file is its last word.
for file; do :; done
is_none() { [ ! -e "$1" ]; }
[ -f "$file" ] && [ "${*%" -r $file"}" != "$*" ] && is_none "$WIRESHARK_CONFIG_DIR"/* || exec "$TSHARK" "$@"
kept=$KEPT/$(printf %s "${*%"$file"}" | cat - "$file" | md5sum) own=$KEPT/$$
if [ ! -d "$kept" ]; then
    mkdir "$own"
    "$TSHARK" "$@" >"$own/output" 2>"$own/errors" && mv "$own" "$kept" || kept=$own status=$?
fi
cat "$kept/errors" >&2
cat "$kept/output"
exit ${status:-0}
