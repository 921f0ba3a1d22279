#!/usr/bin/env bash
# The manual pages: what mandoc says of them, where mandoc is installed, and whether they have each option of the tools' help; the built program's
# help beside its page and the sources; what bash and zsh offer; what `make install` puts where, and what `make
# uninstall` leaves; the Debian package; the pages beside the sources, with each public item; what is listed alike in several languages.
# Usage: tests/manual.sh [PROGRAM]; its last line is 'N passed, M failed, K skipped'.
set -uo pipefail
. "$(dirname "$0")/lib/counting.sh"
program=$(realpath "${1:-$here/../crates/nbt/out/nbt}")
tools=(nbt-look nbt-look-tshark nbt-cap2pcap nbt-dask nbt-station)

# Pages of other programs needn't be installed.
lint() {
    local each
    for each in "$here"/../man/*.1; do
        ended mandoc -T lint "$each" >"$room/lint" 2>/dev/null
        [ $? -lt 5 ] && ! grep -v 'referenced manual not found' "$room/lint"
        count $? "mandoc -T lint man/${each##*/}"
    done
}

# installing TARGET PREFIX: make install, uninstall, install-lib or uninstall-lib, without rt, of the built program and of what
# stands for the library, below $room/root.
installing() {
    (
        PATH=$no_rt
        "$(command -v make)" -s -C "$here/.." "$1" PROGRAM="$program" LOOK="$look" LIBRARY="$room/lib" \
            DESTDIR="$room/root" PREFIX="$2"
    ) >"$room/output" 2>&1
    count $? "make $1 PREFIX=$2, without rt: $(cat "$room/output")"
}

# The programs on PATH but rt: $no_rt, in which $room/no_rt stands for each folder that has one.
without_rt() {
    local folder
    mkdir "$room/no_rt"
    no_rt=
    for folder in ${PATH//:/ }; do
        if [ -e "$folder/rt" ]; then
            find "$folder/" -maxdepth 1 ! -type d ! -name rt -exec ln -s -t "$room/no_rt" {} + 2>/dev/null
            folder=$room/no_rt
        fi
        no_rt+=${no_rt:+:}$folder
    done
}

# usable PREFIX: the programs and their tools, installed below it, in another folder: each prints its help, which says its installed name
# alone, and has a page with each option of it; pages and completions are there, and nothing that Python leaves.
usable() {
    local at=$room/root$1 tool option
    for tool in nbt "${tools[@]}"; do
        (cd "$room" && ended "$at/bin/$tool" --help) >"$room/help" 2>"$room/errors" && grep -q "$tool" "$room/help" &&
            ! grep -qE "(^|[^-a-z_/])cap2pcap" "$room/help" && [ ! -s "$room/errors" ]
        count $? "$tool, installed below $1, prints its help: $(cat "$room/errors")"
        [ -f "$at/share/man/man1/$tool.1" ]
        count $? "$tool, installed below $1: its manual page"
        for option in $(grep -oE '(^|[^-a-z])--[a-z][a-z-]+' "$room/help" | grep -oE '[a-z][a-z-]+' | sort -u); do
            grep -qE "Fl ([a-zA-Z] , )?-$option\b" "$at/share/man/man1/$tool.1"
            count $? "man/$tool.1 has the option --$option"
        done
    done
    [ -f "$at/share/doc/nbt/README.md" ] && [ -f "$at/share/doc/nbt/docs/GUIDE.md" ]
    count $? "make install PREFIX=$1: the pages"
    cmp -s "$here/../completions/nbt.bash" "$at/share/bash-completion/completions/nbt-dask" && [ -f "$at/share/zsh/site-functions/_nbt" ]
    count $? "make install PREFIX=$1: the completions"
    [ -z "$(find "$at" -name __pycache__)" ]
    count $? "the tools installed below $1 leave nothing there"
}

# placed NAME: the files and the folders of the project below $room/root, into $room/NAME.
placed() { (cd "$room/root" && find . ! -type d -o -path '*/nbt' -o -path '*/nbt/*' | LC_ALL=C sort) >"$room/$1"; }

# left NAME WHAT: below $room/root stands what stood there when $room/NAME was written.
left() {
    placed now
    diff "$room/$1" "$room/now" >"$room/difference"
    count $? "$2: $(head -c 300 "$room/difference")"
}

# apart PREFIX: below it the program and the library are put and taken away each by itself, and what others put there stays.
apart() {
    rm -rf "$room/root"
    mkdir -p "$room/root$1/"{share/nbt/python/nbt,lib/pkgconfig,bin,share/man/man1}
    touch "$room/root$1/"{share/nbt/python/nbt/other.py,lib/pkgconfig/other.pc,bin/other,share/man/man1/other.1}
    placed none
    installing install-lib "$1"
    grep -q "ldconfig.* $1/lib" "$room/output" && grep -qF -- "-Wl,-rpath,$1/lib" "$room/output"
    count $? "make install-lib PREFIX=$1 says how programs find the library: $(cat "$room/output")"
    grep -qxF "prefix=$1" "$room/root$1/lib/pkgconfig/nbt.pc"
    count $? "nbt.pc below $1"
    placed library
    installing install "$1"
    usable "$1"
    placed both
    installing uninstall "$1"
    left library "make uninstall PREFIX=$1 takes the program alone"
    installing install "$1"
    left both "make install PREFIX=$1, once more"
    mkdir -p "$room/root$1/share/nbt/python/nbt/__pycache__"
    installing uninstall-lib "$1"
    LC_ALL=C comm -13 "$room/library" "$room/both" | LC_ALL=C sort - "$room/none" -u >"$room/program"
    left program "make uninstall-lib PREFIX=$1 takes the library alone"
    installing uninstall "$1"
    left none "make uninstall PREFIX=$1 after it leaves what others put there"
}

# A PREFIX that nbt.pc can't have is refused before anything is put there.
refused_prefix() {
    rm -rf "$room/root"
    mkdir "$room/root"
    (make -s -C "$here/.." install-lib LIBRARY="$room/lib" DESTDIR="$room/root" PREFIX="$1") >"$room/output" 2>&1
    [ $? -eq 2 ] && grep -q '^tools/pkgconfig: PREFIX is' "$room/output" && [ -z "$(ls "$room/root")" ]
    count $? "make install-lib PREFIX=$1: $(cat "$room/output")"
}

# What is put where below a prefix with all sorts of characters, and what takes it away; the package is made of what is put below a plain one.
prefixes() {
    local each
    without_rt
    mkdir "$room/lib"
    touch "$room/lib/libnbt.a" "$room/lib/libnbt.so.0"
    apart "/it's a b&c|d;e"
    for each in 'usr' '/a#b' '/a"b' '/a(b)'; do refused_prefix "$each"; done
}

# The beginnings of command lines, and the words that a shell offers there; of files it offers those that are there.
offers() {
    cat <<'END'
nbt s|show save
nbt agree -|--list --help
nbt save --|--keys --per-source --input-limit --help
nbt replay --keys |
nbt build r|registration refresh release response request retarget
nbt build --broadcast que|query
nbt build --b|--broadcast
nbt help m|merge
nbt-look --n|--name --no-ticks
nbt-look --l|--lines
nbt-look --p|--port
nbt-look-tshark --k|--kind
nbt-look-tshark --fr|--frame
nbt-cap2pcap --|--help
nbt-dask --s|--shard-bytes --scheduler --send
nbt-dask --w|--workers --wait
nbt-station --p|--port --per-source --pid
END
}

# offered_by_bash LINE..: what bash offers at the end of command lines, a line for each.
offered_by_bash() {
    ended bash -c '
        . "$0"
        for line; do
            read -ra COMP_WORDS <<<"$line"
            [[ $line != *" " ]] || COMP_WORDS+=("")
            COMP_CWORD=$((${#COMP_WORDS[@]} - 1)) COMPREPLY=()
            [[ $(complete -p "${COMP_WORDS[0]}") =~ -F\ ([a-z_]+) ]]
            "${BASH_REMATCH[1]}" "${COMP_WORDS[0]}" "${COMP_WORDS[COMP_CWORD]}" "${COMP_WORDS[COMP_CWORD - 1]}"
            echo "${COMPREPLY[*]}"
        done' "$here/../completions/nbt.bash" "$@"
}

offered_by_zsh() { ended zsh -f "$here/program/completed.zsh" "$here/../completions" "$@"; }

# What tools/completions.py writes for each shell, into $room/written.SHELL; each help is asked once.
written() {
    (cd "$room" && PYTHONPATH=$here/../tools python3 -c 'import contextlib, functools, sys, completions
completions.help_of = functools.lru_cache(None)(completions.help_of)
for shell in "bash", "zsh":
    sys.argv = ["completions.py", shell, *sys.argv[-2:]]
    with open(f"written.{shell}", "w") as file, contextlib.redirect_stdout(file):
        completions.main()' "$program" "$look")
}

# completion SHELL FILE: the shell offers these words, and tools/completions.py writes the file anew.
completion() {
    local lines line wanted offered
    cmp -s "$room/written.$1" "$here/../completions/$2"
    count $? "completions/$2 is what tools/completions.py writes: make completions"
    mapfile -t lines < <(offers)
    mapfile -t offered < <("offered_by_$1" "${lines[@]%%|*}" 2>&1)
    for ((line = 0; line < ${#lines[@]}; line++)); do
        wanted=${lines[line]#*|}
        [ "${offered[line]-none}" = "$wanted" ]
        count $? "$1 at the end of '${lines[line]%%|*}': ${offered[line]-none}"
    done
}

# The package has what is installed, its program and tools run, and its version is the program's and CHANGELOG.md's. That it is made
# of the same bytes once more, and what lintian says of it, tests/targets.sh shows of all packages, which it packs as people get them.
package() {
    local tool version package
    DEBFULLNAME='A tester' DEBEMAIL=tester@example.org DPKG_DEB_COMPRESSOR_TYPE=none \
        make -s -C "$here/.." deb PROGRAM="$program" LOOK="$look" DEB="$room/deb" >"$room/output" 2>&1
    count $? "make deb: $(cat "$room/output")"
    package=$(echo "$room"/deb/nbt_*_amd64.deb)
    version=$(sed -nE '/^## /{ s/^## ([0-9.]+), [0-9-]{10}$/\1/p; q; }' "$here/../CHANGELOG.md")
    [ "$(dpkg-deb -f "$package" Version)" = "$version" ] && [ "$("$program" --version; "$look" --version)" = "nbt $version"$'\n'"nbt-look $version" ]
    count $? "one version: $version in CHANGELOG.md"
    dpkg-deb -x "$package" "$room/unpacked"
    for tool in nbt "${tools[@]}"; do
        (cd "$room" && ended "$room/unpacked/usr/bin/$tool" --help) >"$room/output" 2>&1 && [ -f "$room/unpacked/usr/share/man/man1/$tool.1.gz" ]
        count $? "$tool, unpacked: $(head -n 1 "$room/output")"
    done
}

if command -v mandoc >/dev/null; then part mandoc lint; else lacks mandoc mandoc; fi
part helps counted_by program/helps.py "$program"
part pages counted_by docs/pages.py
part lists counted "$here/../tools/lists.py" --check
written
part bash completion bash nbt.bash
if command -v zsh >/dev/null; then part zsh completion zsh _nbt; else lacks zsh zsh; fi
parts prefixes
if command -v dpkg-deb >/dev/null; then part deb package; else lacks deb dpkg-deb; fi
finish
