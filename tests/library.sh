#!/usr/bin/env bash
# The library for C: that the bindings read no packet by themselves, what it is made of, the examples of bindings/c, its calls beside
# tests/model (tests/library/calls.c), sanitizers, valgrind, memory that runs out, what payloads say beside a slow model, the programs of
# examples/, the package for Python and its types, nbt-station, and the crate for Rust. Usage: [AFTER_RT_CI=1] [MODULE=FILE]
# tests/library.sh [PROGRAM]; its last line is 'N passed, M failed, K skipped'. The library is built over what `rt ci` has just left,
# where AFTER_RT_CI says so, and else by `rt lib`. MODULE then gets its LLVM module.
set -uo pipefail
# What stands last in a pipe counts its cases here.
shopt -s lastpipe
. "$(dirname "$0")/lib/counting.sh"
# The bindings begin with what is made of nbt.h.
"$here/../tools/lists.py" --made || exit
program=$(realpath "${1:-$here/../crates/nbt/out/nbt}")
. "$here/library/shared.sh"
page=$top/docs/CALLING.md
built=$room/built
CC=${CC:-cc}
payloads=2000
values=2000
# What runs a program in Python that uses the package, over the shared object.
in_python=(env NBT_LIBRARY="$built/libnbt.so.0" PYTHONDONTWRITEBYTECODE=1 PYTHONPATH="$top/bindings/python" python3)

# The files, what they define and what they need.
files() {
    local archive=$top/crates/nb_c/out/libnb_c.a
    if [ -n "${AFTER_RT_CI:-}" ]; then
        archive=$room/libnb_c.a
        "$here/library/archive" "$archive" "${MODULE:-$room/nbt.bc}"
    else
        (cd "$top/crates/nb_c" && rt lib)
    fi >"$room/log" 2>&1
    count $? "nb_c is proved and built: $(tail -n 1 "$room/log")"
    "$top/tools/library" "$archive" "$built" "$room/root" >"$room/log" 2>&1
    count $? "tools/library: $(tail -n 1 "$room/log")"
    sed -n 's/^#define NBT_VERSION "\(.*\)"$/nbt \1/p' "$top/include/nbt.h" | same "$("$program" --version)" 'the version of the header'
    well_made '' "$built"
}

examples() {
    local each run=()
    grep -ohE '\bnbt_[a-z_]+\b' "$top"/bindings/c/*.c | sort -u | comm -12 - <(all_of_header) | same "$(all_of_header)" 'each call stands in an example'
    for each in "$top"/bindings/c/*.c; do example "$each" sanitized "$CC" "${sanitized[@]}" "$each" "$built/libnbt.a"; done
    printf '#include <nbt.h>\nint main() { return nbt_status_text(0, nullptr, 0, nullptr) == NBT_DONE; }\n' >"$room/header.cpp"
    c++ -Wall -Wextra -Werror "-I$top/include" -c -o "$room/header.o" "$room/header.cpp" >"$room/log" 2>&1
    count $? "the header in C++: $(head -n 1 "$room/log")"
}

# They run over the shared object too, all in one program, for valgrind takes a second to begin. What each prints stands behind its name.
under_valgrind() {
    local each name texts='' calls='#include <stdio.h>'$'\n''int main(void) { int failed = 0;'
    for each in "$top"/bindings/c/*.c; do
        name=$(basename "$each" .c)
        $CC "${strict[@]}" "-Dmain=of_$name" -c -o "$room/of_$name.o" "$each" >"$room/log" 2>&1
        count $? "$name.c, shared: $(head -n 1 "$room/log")"
        calls+="int of_$name(void); puts(\"== $name\"); failed |= of_$name();"
        texts+="== $name"$'\n'$(wanted "$each")$'\n'
    done
    $CC -o "$room/examples" -x c - -x none "$room"/of_*.o "-L$built" -lnbt <<<"$calls return failed; }" >"$room/log" 2>&1
    LD_LIBRARY_PATH=$built ended valgrind -q --leak-check=full --read-inline-info=no "$room/examples" 2>"$room/errors" | sed 's/ *$//' \
        | same "${texts%$'\n'}" "all examples, shared: $(head -n 1 "$room/log")"
    [ ! -s "$room/errors" ]
    count $? "all examples, valgrind: $(head -n 1 "$room/errors")"
}

# chain POINTERS RECORDS: a payload of port 137 of a record whose RDATA is a chain of pointers to the last byte of the header, which is zero,
# and of so many whose names of servers point to its end.
chain() {
    python3 -c '
import struct, sys
pointers, records = map(int, sys.argv[1:])
places = [0xc000 | it for it in (11, *range(23, 23 + 2 * pointers, 2))]
sys.stdout.buffer.write(struct.pack(">6H BHHLH", 1, 0x8500, 0, records + 1, 0, 0, 0, 10, 1, 0, 2 * pointers)
                        + struct.pack(f">{pointers}H", *places[:-1]) + struct.pack(">BHHLHH", 0, 2, 1, 0, 2, places[-1]) * records)' "$@"
}

# Reading all items costs what the payload and the answer have, however long a chain of pointers their names end in: of a chain and of
# records that are 4 and 16 times as many, some 4 and 16 times as much.
chains() {
    local each counted base=0
    $CC "${strict[@]}" -O2 -o "$room/chain" "$here/library/service_chain.c" "$built/libnbt.a" >"$room/log" 2>&1
    count $? "tests/library/service_chain.c: $(head -n 1 "$room/log")"
    for each in 1 4 16; do
        counted=$(chain $((511 * each)) $((236 * each)) | ended valgrind --tool=callgrind --callgrind-out-file=/dev/null "$room/chain" 2>&1 >"$room/output" \
            | sed -n 's/.*Collected : *//p')
        [ $base -ne 0 ] || base=$counted
        grep -q "^$((236 * each + 1)) items, $((236 * each)) servers, " "$room/output" && [ "$counted" -lt $((base * each * 5 / 4)) ]
        count $? "items at the end of a chain $each times as long: $counted instructions, of $base at first; $(cat "$room/output")"
    done
}

# The calls, beside the model.
callers() {
    compiled plain "$CC" "$built/libnbt.a"
    compiled sanitized "$CC" "$built/libnbt.a" "${sanitized[@]}"
    rows_of 1 "$payloads"
    judged plain "$room/rows" "$room/plain" judged 64
    # Those of no payload that is made by chance: of all rows tests/library/memory.c sees what is written past a block, or given back twice.
    "$here/library/payload_rows.py" cases limits </dev/null >"$room/limits"
    judged sanitized "$room/limits" "$room/sanitized" judged 8
    sed -nE '/^enum nbt_status/,/^};/s/^ .* = ([0-9]+).*/\1/p' "$top/include/nbt.h" | sort \
        | same "$(sed -n 's/^status_text \([0-9]*\) = .*/\1/p' "$room/rows" | sort)" 'the words of each status are in a row'
}

refused() {
    few_payloads
    each_refused x86-64 "$room/plain"
}

# The example of a station is granted ever more requests for memory, until it prints what it says. It leaves nothing behind where it gives up.
short_of_memory() {
    local granted leaks=0 source=$top/bindings/c/station.c
    wanted "$source" >"$room/wanted"
    $CC "${strict[@]}" -fsanitize=address "${wrapped[@]}" -o "$room/example" "$source" "$here/library/memory.c" "$built/libnbt.a" >"$room/log" 2>&1
    count $? "station.c over tests/library/memory.c: $(head -n 1 "$room/log")"
    for ((granted = 0; granted < 200; granted++)); do
        NBT_GRANTED=$granted ended "$room/example" >"$room/output" 2>"$room/errors" \
            && sed 's/ *$//' "$room/output" | cmp -s - "$room/wanted" && break
        ! grep -q Sanitizer "$room/errors" || leaks=$((leaks + 1))
    done
    [ "$granted" -gt 0 ] && [ "$granted" -lt 200 ] && [ "$leaks" -eq 0 ]
    count $? "station.c without memory: $leaks leaks, and it is done when $granted requests are granted"
}

# The code is for processors of x86-64-v2: it has such instructions (SSE4.1), and none of those that came later.
processors() {
    objdump -d --no-show-raw-insn "$built/libnbt.so.0" | awk '/^ / { print $2 }' | sort -u >"$room/instructions"
    [ "$(grep -cE '^(pextr[bdq]|pinsr[bdq]|ptest|pblendvb|popcnt)$' "$room/instructions")" -gt 0 ]
    count $? 'libnbt.so.0 has instructions of x86-64-v2'
    ! grep -E '^(v[a-z]+|andn|bextr|bls[ir]|blsmsk|bzhi|mulx|pdep|pext|rorx|sarx|shlx|shrx|lzcnt|movbe)$' "$room/instructions" \
        >"$room/later"
    count $? "libnbt.so.0 has no instructions past x86-64-v2: $(head -n 3 "$room/later")"
}

# The limits of what the header allows, to each of which a caller goes, its bounds, and the statuses that it lists for each call.
limits() {
    ended "$room/plain" varied <"$room/limits" >"$room/statuses" 2>"$room/errors"
    count $? "calls at each limit: $(tail -n 3 "$room/errors" | head -c 500)"
    "$here/library/statuses_reached.py" "$top/include/nbt.h" <"$room/statuses" >"$room/output" 2>&1
    count $? "each call answers what the header lists: $(head -n 3 "$room/output" | head -c 300)"
    { cat "$room/rows" && "$here/captures/payloads.py" worst 6 | "$here/library/payload_rows.py"; } \
        | ended "$room/plain" measured >"$room/output" 2>"$room/errors"
    count $? "the stack and the texts of calls: $(tail -n 1 "$room/errors")"
    sed -nE 's/^(brief|capture_line|name_text): .*, ([0-9]+) of text$/\1 \2/p' "$room/output" | sort \
        | same "$(printf '%s\n' 'brief 1633' "capture_line $(limit LINE_ROOM)" "name_text $(limit NAME_ROOM)")" 'the longest texts'
    cut -d : -f 1 "$room/output" | sort | same "$(calls | sed 's/^nbt_//' | grep -vx station_free)" 'the stack of each call is measured'
    short_of_memory
    processors
}

# What was found to reach the most of the library (tests/fuzz_coverage.py), once more. A place that is one off doesn't pass.
corpus() {
    "$here/captures/payloads.py" inputs 1000000 <"$here/library/corpus.txt" | "$here/library/payload_rows.py" >"$room/corpus"
    judged 'of the corpus' "$room/corpus" "$room/plain" judged
    awk '/^datagram_read P ! truncated / { $NF++ } 1' "$room/corpus" | ended "$room/plain" judged >"$room/output" 2>&1
    [ $? -ne 0 ] && grep -q 'not so: what a row says' "$room/output"
    count $? "a place that is one off is found: $(tail -n 1 "$room/output")"
    [ "$(stat -c %s "$here/library/corpus.txt")" -lt 2000000 ]
    count $? 'the corpus has less than 2 MB'
}

# Payloads that are made by chance, and those of the corpus.
many_payloads() {
    "$here/captures/payloads.py" --seed 11 values "$values"
    "$here/captures/payloads.py" inputs 1000000 <"$here/library/corpus.txt" | grep -v '^table'
}

# What payloads say, as values, and what stands of those that are refused.
values() {
    said "$room/values" many_payloads
    [ "$(grep -cP '^137 .*\t: \{"fault":null' "$room/values")" -ge 400 ] && [ "$(grep -cP '^137 .*\t: \{"fault":\{' "$room/values")" -ge 5000 ]
    count $? 'at least 5,400 payloads of port 137, of which some stand and many are refused'
}

# The programs of examples/ in C and Python, over its pcaps; that in Rust is one of the part rust.
programs() {
    local each
    for each in office samba; do
        "$look" --lines --quiet --bare "$top/examples/$each.pcap" >"$room/$each.txt" 2>"$room/errors"
        count $? "examples/$each.pcap: $(tail -n 1 "$room/errors")"
    done
    $CC "${strict[@]}" -o "$room/claims" "$top/examples/claims.c" "$built/libnbt.a" >"$room/log" 2>&1
    count $? "examples/claims.c: $(head -n 1 "$room/log")"
    ended "$room/claims" <"$room/office.txt" | same "$(printf 'FRED<20> 10.0.0.6\n%.0s' 1 2 3)" 'the claims of the office'
    ended "$room/claims" <"$room/samba.txt" | grep -c 'group$' | same 28 'the claims of groups that Samba sends'
    ended "${in_python[@]}" "$top/examples/claimants.py" <"$room/office.txt" | same 'no name has two claimants' 'the claimants of the office'
    ended "${in_python[@]}" "$top/examples/claimants.py" <"$room/samba.txt" | same "$(printf 'FRED<%s> 10.0.0.5 10.0.0.6\n' 00 03 20)" \
        'the claimants of names that Samba sends'
}

# The package for Python, over the shared object.
python() {
    local each
    (cd "$top/bindings/python" && NBT_LIBRARY=$built/libnbt.so.0 PYTHONDONTWRITEBYTECODE=1 PYTHONPATH=. \
        ended python3 -m unittest discover -v tests) >"$room/log" 2>&1
    count $? "python3 -m unittest: $(tail -n 3 "$room/log" | head -c 300)"
    passed=$((passed + $(grep -cE '\.\.\. ok$' "$room/log")))
    for each in asked values; do answers tests/library/answers.py "$room/$each" "${in_python[@]}" "$here/library/answers.py"; done
}

# The types of the package, and of calls that use them, by mypy's strict rules for the oldest Python that it is for.
types() {
    local each words=(--strict --python-version 3.10 --cache-dir "$room/mypy")
    for each in '-p nbt' tests/typed_calls.py; do
        (cd "$top/bindings/python" && MYPYPATH=. ended mypy "${words[@]}" $each) >"$room/log" 2>&1
        count $? "mypy --strict $each: $(head -n 3 "$room/log")"
    done
}

# tools/nbt-station on sockets of the loopback interface.
station() {
    NBT_LIBRARY=$built/libnbt.so.0 counted "$timeout" -k 5 600 "$here/library/station.py" "$top/tools/nbt-station" "$program"
}

# Installed in another folder, and found by pkg-config.
installed() {
    local each
    make -s -C "$top" install-lib LIBRARY="$built" DESTDIR= PREFIX="$room/root" >"$room/log" 2>&1
    count $? "make install-lib: $(tail -n 1 "$room/log")"
    $CC -std=c11 -static -o "$room/example" "$top/bindings/c/show.c" \
        $(PKG_CONFIG_PATH=$room/root/lib/pkgconfig pkg-config --cflags --libs --static nbt) >"$room/log" 2>&1
    count $? "a program by pkg-config --static: $(head -n 1 "$room/log")"
    ended "$room/example" | same "$(wanted "$top/bindings/c/show.c")" 'a program by pkg-config --static'
    # The programs of docs/CALLING.md, of which its commands run the first ones, and what it says that they print.
    mkdir "$room/page" && block c "$page" >"$room/page/first.c" && block python "$page" >"$room/page/first.py"
    commands 1 "$room/page" | same "$(block text "$page")" 'the commands for C of docs/CALLING.md'
    commands 2 "$room/page" | same "$(block text "$page" 2)" 'the command for Python of docs/CALLING.md'
    for each in 2 3 4; do
        block python "$page" $each >"$room/first.py"
        local words=("$room/first.py")
        [ $each -gt 2 ] || words=("$here/library/gateway.py" "$room/first.py")
        PYTHONPATH=$room/root/share/nbt/python PYTHONDONTWRITEBYTECODE=1 ended python3 "${words[@]}" 2>&1 \
            | same "$(block text "$page" $((each + 1)))" "program $each in Python of docs/CALLING.md"
    done
    installed_below "$room/it's a place & more"
}

# commands NUMBER FOLDER: a block of commands of docs/CALLING.md, over what is installed below $room/root, where no variable leads.
commands() {
    (
        cd "$2" || exit
        unset LD_LIBRARY_PATH PYTHONPATH NBT_LIBRARY NBT_STATIC PKG_CONFIG_PATH
        block sh "$page" "$1" | sed "s,/usr/local,$room/root,g" | PYTHONDONTWRITEBYTECODE=1 CARGO_NET_OFFLINE=true "$timeout" -k 5 600 sh -e
    ) 2>"$room/errors"
}

# installed_below PREFIX: the words of pkg-config lead a shell there, and a program that is linked with -rpath starts by itself; so
# does the package for Python.
installed_below() {
    local flags
    make -s -C "$top" install-lib LIBRARY="$built" DESTDIR= PREFIX="$1" >"$room/log" 2>&1
    count $? "make install-lib PREFIX=$1: $(tail -n 1 "$room/log")"
    flags=$(PKG_CONFIG_PATH=$1/lib/pkgconfig pkg-config --cflags --libs nbt)
    eval "$CC -std=c11 -Wall -Wextra -Werror -o \"\$room/example\" \"\$room/page/first.c\" $flags \"-Wl,-rpath,\$1/lib\"" >"$room/log" 2>&1
    count $? "a program by pkg-config below $1: $(head -n 1 "$room/log")"
    ended env -u LD_LIBRARY_PATH "$room/example" | same "$(block text "$page")" "a program below $1"
    env -u NBT_LIBRARY PYTHONPATH="$1/share/nbt/python" PYTHONDONTWRITEBYTECODE=1 "$timeout" 120 python3 "$room/page/first.py" 2>&1 \
        | same "$(block text "$page" 2)" "the package for Python below $1"
}

# What Cargo takes in the place of crates.io, without network: Debian's packages of crates, in which serde is.
registry=/usr/share/cargo/registry
debian=(--offline --config 'source.crates-io.replace-with="debian"' --config "source.debian.directory=\"$registry\"")
# What is compiled here runs a few times: nothing is kept for a later compilation, nor for a debugger, and nothing is cut into parts that
# are compiled side by side, which takes more in all. All has the same words, so that a crate that several programs need is compiled once.
export CARGO_INCREMENTAL=0 CARGO_PROFILE_DEV_DEBUG=0 CARGO_PROFILE_DEV_CODEGEN_UNITS=1 CARGO_PROFILE_DEV_BUILD_OVERRIDE_CODEGEN_UNITS=1
export RUSTFLAGS='-D warnings'

# in_rust COMMAND [OPTION]..: cargo's command on a copy of the crate for Rust, over what is installed below $room/root. It may take ten
# minutes, for beside other work serde alone takes two.
in_rust() {
    (
        cd "$room/bindings/rust" || exit
        export PKG_CONFIG_PATH=$room/root/lib/pkgconfig LD_LIBRARY_PATH=$room/root/lib CARGO_TARGET_DIR=$room/target
        "${linting[@]}" "$timeout" -k 5 600 cargo "$@"
    ) >"$room/log" 2>&1
    count $? "cargo $1: $(grep -m 1 -E '^(error|Diff|test .* FAILED)' "$room/log")"
}

# The crate for Rust: its tests over the shared object, also in a program that links libnbt.a, and beside the model.
# Programs that don't ask for the feature serde need no registry.
rust() {
    local each linting=()
    mkdir -p "$room/bindings/rust" && cp -R "$top"/bindings/rust/{Cargo.toml,build.rs,rustfmt.toml,src,tests} "$room/bindings/rust"
    # The compiler that Clippy is compiles them, where it is there: another one would compile serde once more.
    if ! { cargo fmt --version && cargo clippy --version && command -v clippy-driver; } >/dev/null 2>&1; then
        skipped=$((skipped + 2)) && echo "skipped: cargo fmt, cargo clippy (one isn't installed)"
    else
        in_rust fmt --check
        in_rust clippy "${debian[@]}"
        linting=(env RUSTC_WORKSPACE_WRAPPER=clippy-driver)
    fi
    for each in '--test=*' --doc; do
        in_rust test "${debian[@]}" --features serde "$each"
        passed=$((passed + $(awk '/^test result: ok/ { sum += $4 } END { print sum + 0 }' "$room/log")))
    done
    linting=()
    RUSTDOCFLAGS='-D warnings' in_rust doc "${debian[@]}" --no-deps
    # For cargo's word serde would be checked once more.
    (cd "$room/bindings/rust" && ended rustdoc --edition 2021 --crate-name nbt -D warnings --cfg 'feature="serde"' -L "$room/target/debug/deps" \
        --extern "serde=$(echo "$room"/target/debug/deps/libserde-*.rlib)" -o "$room/doc" src/lib.rs) >"$room/log" 2>&1
    count $? "rustdoc with serde: $(head -n 1 "$room/log")"
    # The crate itself would have it compiled with what its tests need too.
    package answering "$here/library/answers.rs" 'nbt.features = ["serde"]' 'serde_json = "1"'
    NBT_STATIC=1 in_rust build "${debian[@]}" --manifest-path "$room/answering/Cargo.toml"
    for each in asked values; do answers tests/library/answers.rs "$room/$each" "$room/target/debug/answering"; done
    block rust "$page" >"$room/first.rs"
    package first "$room/first.rs"
    CARGO_TARGET_DIR=$room/target commands 3 "$room/first" </dev/null \
        | same "$(printf '%s\n' "$(block text "$page" 6)" "$(block text "$page" 6)")" 'the commands for Rust of docs/CALLING.md'
    block rust "$page" 2 >"$room/as_json.rs"
    user_program as_json "$room/as_json.rs" 'nbt.features = ["serde"]' 'serde_json = "1"' </dev/null \
        | same "$(block text "$page" 7)" 'the program in Rust of docs/CALLING.md with serde'
    status_answers
    [ ! -f "$room/samba.txt" ] || node_statuses
}

# The program of examples/ in Rust that answers: two requests of its own names and one of any, and neither another name nor a query.
status_answers() {
    local each name
    for each in 'status 0001 FRED<20>' 'status 0002 OFFICE<00>' "status 0003 *$(printf '\\00%.0s' {1..14})<00>" 'status 0004 JOE<00>' 'query 0005 FRED<20>'; do
        name=${each##* }
        ended "$program" build ${each% *} "$name"
    done >"$room/requests"
    user_program status_answers "$top/examples/status_answers.rs" <"$room/requests" >"$room/answers"
    ended "$program" show <"$room/answers" | grep -oE 'id=[0-9a-f]{4} word=8400' | same "$(printf 'id=%s word=8400\n' 0001 0002 0003)" \
        'node status requests of its names are answered'
    user_program node_statuses "$top/examples/node_statuses.rs" <"$room/answers" | same \
        "$(printf '00:00:5e:00:53:01: FRED<00>, FRED<20>, OFFICE<00> (group)\n%.0s' 1 2 3)" 'the answers have its names and its unit'
}

# The program of examples/ in Rust, over its pcaps.
node_statuses() {
    user_program node_statuses "$top/examples/node_statuses.rs" <"$room/office.txt" | wc -c | same 0 'the office has no node status'
    user_program node_statuses "$top/examples/node_statuses.rs" <"$room/samba.txt" | same '00:00:00:00:00:00: FRED<00>, FRED<03>, FRED<20>, '\
'\01\02__MSBROWSE__\02<01> (group), OFFICE<00> (group), OFFICE<1d>, OFFICE<1e> (group)' 'the node status that Samba sends'
}

# package NAME FILE [LINE]..: a program in Rust in a folder of its own, over the crate that is installed, with further lines of its
# dependencies.
package() {
    mkdir -p "$room/$1/src"
    printf '[package]\nname = "%s"\nversion = "0.1.0"\nedition = "2021"\n\n[dependencies]\nnbt.path = "%s"\n' \
        "$1" "$room/root/share/nbt/rust" >"$room/$1/Cargo.toml"
    printf '%s\n' "${@:3}" >>"$room/$1/Cargo.toml"
    cp "$2" "$room/$1/src/main.rs"
}

# user_program NAME FILE [LINE]..: it runs, over Debian's crates where it has further lines.
user_program() {
    local words=(--offline)
    [ $# -eq 2 ] || words=("${debian[@]}")
    package "$@"
    (cd "$room/$1" && PKG_CONFIG_PATH=$room/root/lib/pkgconfig NBT_STATIC=1 CARGO_TARGET_DIR=$room/target \
        "$timeout" -k 5 600 cargo run --quiet "${words[@]}") 2>&1
}

part readers counted_by library/packet_readers.py
parts files examples
needing valgrind valgrind under_valgrind
needing valgrind chains chains
part callers callers
part memory refused
parts limits corpus values
needing tshark programs programs
part python python
needing mypy types types
part station station
needing pkg-config installed installed
if ! command -v pkg-config >/dev/null; then
    lacks rust pkg-config
elif compgen -G "$registry/serde_json-*" >/dev/null && compgen -G "$registry/serde_derive-*" >/dev/null; then
    needing cargo rust rust
else
    lacks rust 'librust-serde-derive-dev and librust-serde-json-dev'
fi
finish
