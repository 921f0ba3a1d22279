# Read by tests/targets.sh: what make dist makes, and that each package does what its page says where nothing else of the library
# is: Debian's in a fresh root of both machines, a wheel in a fresh environment, the package for JavaScript, the crate for Rust.
dist=$room/dist
fresh=$room/fresh

# packed FOLDER: make dist, into this folder.
packed() { "$top/tools/dist" "$out" "$out/lib" "$program" "$look" "$1" "$here/counts.txt" >"$room/log" 2>&1; }

# The same bytes twice, the second time over those of an older version; PROOF has each source, and no other file.
made() {
    local each
    packed "$dist"
    count $? "tools/dist: $(tail -n 1 "$room/log")"
    mkdir "$room/dist2" && touch "$room/dist2/nbt_0.0.9_amd64.deb"
    packed "$room/dist2" && diff -r "$dist" "$room/dist2" >"$room/log"
    count $? "the same bytes once more: $(head -c 300 "$room/log")"
    (cd "$dist" && sha256sum --quiet -c SHA256SUMS && [ "$(wc -l <SHA256SUMS)" -eq $(($(ls | wc -l) - 1)) ]) >"$room/log" 2>&1
    count $? "SHA256SUMS: $(head -n 1 "$room/log")"
    (cd "$top" && grep -E '^[0-9a-f]{64}  crates/' "$dist/PROOF" | sha256sum --quiet -c) >"$room/log" 2>&1
    count $? "the sources of PROOF: $(head -n 1 "$room/log")"
    sed -nE 's/^[0-9a-f]{64}  (crates\/.*\.(rt|antt))$/\1/p' "$dist/PROOF" | sort \
        | same "$(git -C "$top" ls-files 'crates/*.rt' 'crates/*.antt' | sort)" 'PROOF has each source'
    grep -q '^The kit: rattle-kit' "$dist/PROOF" && grep -q '^The library: logic=proved ' "$dist/PROOF" \
        && grep -qxF "$(tail -n 1 "$here/counts.txt")" "$dist/PROOF"
    count $? "PROOF has the kit's line, that of the library, and the gate's last ones: $(head -n 4 "$dist/PROOF")"
    (cd "$out" && grep -E '  nbt.bc$' "$dist/PROOF" | sha256sum --quiet -c) >"$room/log" 2>&1
    count $? "the module of PROOF: $(head -n 1 "$room/log")"
    {
        for each in "$dist"/*.deb; do dpkg-deb --ctrl-tarfile "$each" | tar -t; done | grep -E '(pre|post)(inst|rm)'
        grep scripts "$top/bindings/javascript/package.json"
    } >"$room/log"
    [ ! -s "$room/log" ]
    count $? "no package runs anything when it is installed: $(head -n 1 "$room/log")"
    says 'make dist, to a file' "can't be written to" "$top/tools/dist" "$out" "$out/lib" "$program" "$look" "$here/counts.txt/dist"
    says 'make dist of nothing' 'run make build targets first' "$top/tools/dist" "$room/nowhere" "$out/lib" "$program" "$look" "$room/dist3"
    says "make dist, where the gate's lines aren't" 'run make test >' "$top/tools/dist" "$out" "$out/lib" "$program" "$look" "$room/dist3" "$room/gate.log"
    mkdir "$room/others" && touch "$room/others/letter.txt"
    says 'make dist, into a folder with other files' "letter.txt, which make dist didn't make" \
        "$top/tools/dist" "$out" "$out/lib" "$program" "$look" "$room/others"
    [ -f "$room/others/letter.txt" ]
    count $? 'which are left there'
}

# No error in a package, but that none says under what licence it is: a file with that is for the owner to add. Those of the other machine
# are made by the same lines.
lint() {
    ended lintian --tag-display-limit 0 --fail-on none "$dist"/*_{amd64,all}.deb >"$room/lint" 2>/dev/null
    [ $? -lt 2 ] && ! grep '^E: ' "$room/lint" | grep -v 'no-copyright-file' >"$room/log"
    count $? "lintian finds no error: $(head -n 3 "$room/log" | tr '\n' ' ')"
}

# A root that has what each Debian system must have, from the place, and of the release, of this machine's own packages; and all of ours in it, of
# both machines, with what they want, as apt finds it there: $fresh/packages/status has how that went. The root's folders are /usr's from the
# start, by a hook of mmdebstrap, or perl would come to make them so. What mmdebstrap mounts there, as /proc, nobody else sees: a script that is
# stopped meanwhile empties $room of files alone.
fresh_root() {
    local mirror='' suite='' merged=/usr/share/mmdebstrap/hooks/merged-usr/setup00.sh
    apt-get indextargets --format '$(REPO_URI) $(CODENAME)' 'Created-By: Packages' 'Label: Debian' 2>"$room/log" \
        | grep -v -- - | read -r mirror suite
    [ -x "$merged" ] || merged=true
    dist=$dist "$timeout" -k 5 900 unshare --mount --propagation private \
        mmdebstrap --quiet --mode=root --variant=essential --architectures=amd64,arm64 --skip=cleanup/apt/lists \
        --aptopt='Acquire::Retries "3"' --aptopt='Acquire::Languages "none"' --dpkgopt=force-unsafe-io --setup-hook="$merged" \
        --customize-hook='mkdir "$1/packages" && cp "$dist"/*.deb "$1/packages"
            APT_CONFIG=$MMDEBSTRAP_APT_CONFIG DEBIAN_FRONTEND=noninteractive LC_ALL=C apt-get install -qq -y --no-install-recommends \
                -o DPkg::Chroot-Directory="$1" "$1"/packages/*.deb >"$1/packages/log" 2>&1
            echo $? >"$1/packages/status"' \
        "${suite:-stable}" "$fresh" "${mirror:-http://deb.debian.org/debian}" >"$room/log" 2>&1
}

# The packages, in the fresh root.
installed() {
    local each
    [ "$(cat "$fresh/packages/status")" = 0 ]
    count $? "apt-get install ./*.deb: $(tail -n 1 "$fresh/packages/log")"
    dpkg-deb -f "$dist"/nbt_*_amd64.deb Depends | grep -c nbt | same 0 'the program can be installed without the others'
    for each in nbt:amd64 'libnbt0:amd64 libnbt-dev:amd64 python3-nbt' 'libnbt0:arm64 libnbt-dev:arm64'; do
        dpkg-query --admindir="$fresh/var/lib/dpkg" -W -f '${db:Status-Status}\n' $each 2>&1 | sort -u | same installed "in the fresh root: $each"
    done
}

# in_c COMPILER PROGRAM OPTION..: the first program of docs/CALLING.md, compiled so. c_says COMMAND..: what it prints, by this command.
in_c() {
    block c "$top/docs/CALLING.md" >"$room/first.c"
    "$1" -std=c11 -Wall -Wextra -Werror -o "$2" "$room/first.c" "${@:3}" >"$room/log" 2>&1
    count $? "the program of docs/CALLING.md by $1: $(head -n 1 "$room/log")"
}
c_says() { ended "${@:2}" 2>&1 | same "$(block text "$top/docs/CALLING.md")" "$1"; }

# Each package's example, in the fresh root: the samples of README.md and docs/CAPTURES.md by its program, and the first programs of docs/CALLING.md.
debian() {
    local each
    installed
    mkdir "$room/bin"
    printf '#!/bin/sh\nexec chroot "%s" nbt "$@"\n' "$fresh" >"$room/bin/nbt" && chmod +x "$room/bin/nbt"
    ln -s "$fresh"/usr/bin/nbt-{look,look-tshark,cap2pcap} "$room/bin"
    page README.md
    page docs/CAPTURES.md
    in_c "${CC:-cc}" "$fresh/packages/first" -I"$fresh/usr/include" -L"$fresh/usr/lib/x86_64-linux-gnu" -lnbt
    c_says 'libnbt-dev and libnbt0 of amd64' chroot "$fresh" /packages/first
    in_c aarch64-linux-gnu-gcc "$room/first.arm" -I"$fresh/usr/include" -L"$fresh/usr/lib/aarch64-linux-gnu" -lnbt
    c_says 'libnbt-dev and libnbt0 of arm64' qemu-aarch64 -L "$fresh" "$room/first.arm"
    each=$fresh/usr/share/doc/python3-nbt/README.md
    block python "$each" >"$fresh/packages/first.py"
    ended chroot "$fresh" python3 /packages/first.py 2>&1 | same "$(block text "$each")" 'python3-nbt'
    printf 'import importlib.metadata, nbt\nprint(importlib.metadata.version("nbt") == nbt.__version__)\n' >"$fresh/packages/version.py"
    ended chroot "$fresh" python3 /packages/version.py 2>&1 | same True "the version in python3-nbt's metadata"
    ended chroot "$fresh" nbt-station --bind 127.0.0.1:0 FRED 2>&1 | same 'nbt-station: bad text 4' 'nbt-station, over python3-nbt'
    for each in amd64:x86_64-linux-gnu arm64:aarch64-linux-gnu; do
        grep -qx "$(sha256sum <"$fresh/usr/lib/${each#*:}/libnbt.so.0" | cut -c 1-64)  libnbt.so.0 of ${each%:*}" "$dist/PROOF"
        count $? "PROOF has the library for ${each%:*}"
    done
}

# A wheel in an environment of its own, and the other machine's by pip's word for that machine.
wheels() {
    local page each glibc alone=(env -u PYTHONPATH -u NBT_LIBRARY -u LD_LIBRARY_PATH) without=() pip=("$room/venv/bin/pip")
    # Where python3 has a pip that installs into others, the environment needs none, which takes the longest to put there.
    if python3 -c 'import pip, sys; sys.exit(int(pip.__version__.split(".")[0]) < 23)' 2>/dev/null; then
        without=(--without-pip) pip=(python3 -m pip --python "$room/venv/bin/python")
    fi
    ended python3 -m venv "${without[@]}" "$room/venv" >"$room/log" 2>&1 \
        && ended "${pip[@]}" install -q --no-index "$dist"/*x86_64.whl >"$room/log" 2>&1
    count $? "pip install of the wheel: $(tail -n 1 "$room/log")"
    page=$(echo "$room"/venv/lib/python3*/site-packages/nbt-*.dist-info/METADATA)
    block python "$page" >"$room/first.py"
    (cd "$room" && ended "${alone[@]}" "$room/venv/bin/python" first.py) 2>&1 | same "$(block text "$page")" 'the wheel'
    ended "${pip[@]}" uninstall -q -y nbt >"$room/log" 2>&1 && [ ! -e "${page%/*}" ] && [ ! -e "${page%/*/*}/nbt" ]
    count $? "pip uninstall: $(tail -n 1 "$room/log")"
    ended "${pip[@]}" install -q --no-index --only-binary :all: --platform manylinux_2_17_aarch64 --target "$room/wheel" \
        "$dist"/*aarch64.whl >"$room/log" 2>&1
    count $? "pip install of the wheel for aarch64: $(tail -n 1 "$room/log")"
    in_c aarch64-linux-gnu-gcc "$room/first.arm" "-I$top/include" "$room/wheel/nbt/libnbt.so.0"
    c_says 'the library in it' "${qemu[@]}" -E LD_LIBRARY_PATH="$room/wheel/nbt" "$room/first.arm"
    for each in x86_64 aarch64; do
        glibc=$(aarch64-linux-gnu-readelf -VW "$out/lib/${each/x86_64/}/libnbt.so.0" | grep -oE 'GLIBC_[0-9.]+' | sort -uV | tail -n 1)
        glibc=${glibc#GLIBC_}
        [ -f "$dist/nbt-"*"-py3-none-manylinux_${glibc/./_}_$each.whl" ]
        count $? "the wheel for $each wants glibc $glibc"
    done
}

# The package for JavaScript, by npm if it is there; without it as npm puts it.
node_package() {
    mkdir -p "$room/packed/node_modules"
    if command -v npm >/dev/null; then
        (cd "$room/packed" && ended npm install --offline --no-audit --no-fund --silent "$dist"/nbt-*.tgz)
    else
        tar -xzf "$dist"/nbt-*.tgz -C "$room/packed/node_modules" && mv "$room/packed/node_modules/package" "$room/packed/node_modules/nbt"
    fi >"$room/log" 2>&1
    count $? "npm install: $(tail -n 1 "$room/log")"
    block js "$room/packed/node_modules/nbt/README.md" >"$room/packed/first.mjs"
    ended "${node[@]}" "$room/packed/first.mjs" 2>&1 | same "$(block text "$room/packed/node_modules/nbt/README.md")" 'the package for JavaScript'
}

# The crate for Rust in a program that has nothing but it.
crate() {
    local folder=$room/crate
    mkdir "$folder" && tar -xzf "$dist"/nbt-*-rust.tar.gz -C "$folder" && mv "$folder"/nbt-* "$folder/nbt"
    (cd "$folder" && ended cargo new --quiet --vcs none first && cd first && ended cargo add --quiet --offline --path ../nbt) >"$room/log" 2>&1
    count $? "cargo add: $(tail -n 1 "$room/log")"
    block rust "$folder/nbt/README.md" >"$folder/first/src/main.rs"
    (cd "$folder/first" && PKG_CONFIG=/bin/false ended cargo run --quiet --offline) 2>&1 \
        | same "$(block text "$folder/nbt/README.md")" 'the crate for Rust'
}

# All of these, as parts.
packages() {
    local each
    if ! command -v dpkg-deb >/dev/null; then
        for each in dist lintian debian wheels npm crate; do lacks "$each" dpkg-deb; done
        return
    fi
    part dist made
    needing lintian lintian lint
    if ! command -v mmdebstrap >/dev/null; then
        lacks debian mmdebstrap
    elif fresh_root; then
        part debian debian
    else
        skip debian "no fresh root: $(tail -n 1 "$room/log" | cut -c 1-200)"
        [ "${CI:-}" != true ] || count 1 'debian: CI has to make a fresh root, as root, from the place of its own packages'
    fi
    if python3 -c 'import ensurepip' 2>/dev/null; then part wheels wheels; else lacks wheels python3-venv; fi
    part npm node_package
    needing cargo crate crate
}
