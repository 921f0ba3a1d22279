#!/usr/bin/env bash
# The library for other targets, made of the module of which the one for x86-64 is made: the same calls answer the same on x86-64, on
# aarch64 (by qemu) and in WebAssembly (in node), where memory runs out too; the package for JavaScript; the packages of make dist; what is
# said where a tool is missing. Usage: [MODULE=FILE] [OUT=FOLDER] tests/targets.sh [PROGRAM]; its last line is 'N passed, M failed, K
# skipped'. MODULE is the module, if it is there; else tools/module makes it. MODULE.a is the archive that the kit made of it, which
# tools/module leaves in crates/nb_c/out. OUT keeps what is made.
set -uo pipefail
shopt -s lastpipe
. "$(dirname "$0")/lib/counting.sh"
program=$(realpath "${1:-$here/../crates/nbt/out/nbt}")
. "$here/library/shared.sh"
out=${OUT:-$room/out}
. "$here/library/package_cases.sh"
payloads=400
qemu=(qemu-aarch64 -L /usr/aarch64-linux-gnu)
memory64='process.exit(WebAssembly.validate(Uint8Array.of(0, 97, 115, 109, 1, 0, 0, 0, 5, 3, 1, 4, 1)) ? 0 : 1)'

# The module, and what is made of it.
files() {
    local module=${MODULE:-} archive arm=$out/lib/aarch64
    if [ ! -s "$module" ]; then
        module=$room/nbt.bc
        "$top/tools/module" "$module" >"$room/log" 2>&1
        count $? "tools/module: $(tail -n 1 "$room/log")"
    fi
    "$top/tools/targets" make "$module" "$out" "$room/root" >"$room/log" 2>&1
    count $? "tools/targets: $(tail -n 1 "$room/log")"
    cp "$module" "$out/nbt.bc" && cp "$module.verdict" "$out/nbt.bc.verdict"
    count $? 'the module and its verdict'
    archive=$module.a
    [ -s "$archive" ] || archive=$top/crates/nb_c/out/libnb_c.a
    "$top/tools/library" "$archive" "$out/lib" >"$room/log" 2>&1
    count $? "the library for x86-64: $(tail -n 1 "$room/log")"
    well_made aarch64-linux-gnu- "$arm"
    grep -c "^prefix=$room/root$" "$arm/nbt.pc" | same 1 'nbt.pc of aarch64'
    [ "$(gzip -9c "$out/nbt.wasm" | wc -c)" -lt 120000 ]
    count $? "nbt.wasm has $(gzip -9c "$out/nbt.wasm" | wc -c) bytes by gzip, which are 120,000 at most"
    again "$(dirname "$(rt doc | head -n 1)")/toolchain/bin/clang"
}

# again CLANG: the same module gives the same files, wherever they are made: a small one, whose calls are the header's, and answer numbers.
again() {
    local each
    calls | sed 's/.*/unsigned &(void) { return __LINE__; }/' | "$1" -O1 -c -emit-llvm -x c -o "$room/small.bc" - && mkdir "$room/once" "$room/again"
    count $? 'a small module'
    for each in once again; do "$top/tools/targets" make "$room/small.bc" "$room/$each" "$room/root" || break; done >"$room/log" 2>&1 \
        && diff -r "$room/once" "$room/again" >"$room/log" && [ -s "$room/again/nbt.wasm" ]
    count $? "the same files once more: $(tail -n 1 "$room/log")"
}

# All calls, with the same words.
all_calls() {
    compiled calls "${CC:-cc}" "$out/lib/libnbt.a"
    compiled calls.arm aarch64-linux-gnu-gcc "$out/lib/aarch64/libnbt.a"
    rows_of 11 "$payloads"
    judged x86-64 "$room/rows" "$room/calls" judged
    mv "$room/output" "$room/answers"
    alike aarch64 "$room/answers" "${qemu[@]}" "$room/calls.arm" judged <"$room/rows"
    alike WebAssembly "$room/answers" "${node[@]}" "$here/library/calls.mjs" "$out/nbt.wasm" judged <"$room/rows"
}

# Each request for memory refused in turn, on the other targets.
refused() {
    few_payloads
    each_refused aarch64 "${qemu[@]}" "$room/calls.arm"
    mv "$room/output" "$room/answers"
    alike 'with each request refused, WebAssembly' "$room/answers" "${node[@]}" "$here/library/calls.mjs" "$out/nbt.wasm" refused <"$room/few"
    refusals
}

# The package for JavaScript: its tests, and what it answers. The part npm has the program of its page.
javascript() {
    local each
    ended "${node[@]}" --expose-gc "$top/bindings/javascript/tests/nbt.test.mjs" "$out" "$top/include/nbt.h" >"$room/log" 2>&1
    count $? "bindings/javascript/tests: $(grep -m 3 -E "^not ok|^ +error:" "$room/log" | tr '\n' ' ')"
    passed=$((passed + $(grep -c '^ok ' "$room/log")))
    said "$room/values" "$here/captures/payloads.py" --seed 14 values 1500
    for each in asked values; do
        answers tests/library/answers.mjs "$room/$each" "${node[@]}" "$here/library/answers.mjs" "$out"
    done
}

# The types of the package for JavaScript, and of calls that use them.
types() {
    (cd "$top/bindings/javascript" && ended tsc --strict --noEmit --skipDefaultLibCheck --module es2022 --moduleResolution nodenext \
        --target es2022 --lib es2022,dom tests/typed_calls.mts) >"$room/log" 2>&1
    count $? "tsc --strict: $(head -n 3 "$room/log")"
}

# says NAME TEXT COMMAND..: a command fails, and says so in one line that has a text.
says() {
    ! ended "${@:3}" >"$room/output" 2>"$room/errors" && [ ! -s "$room/output" ] && [ "$(wc -l <"$room/errors")" -eq 1 ] && grep -qF -- "$2" "$room/errors"
    count $? "$1: $(head -c 300 "$room/errors")"
}

# What is missing, or can't be written to.
missing() {
    local tool python few=$room/few_tools
    python=$(python3 -c 'import sys; print(sys.executable)')
    mkdir "$few"
    for tool in awk basename dirname grep ln mktemp mkdir realpath rm rt sort tail timeout; do ln -s "$(command -v $tool)" "$few/$tool"; done
    ln -s "$python" "$few/python3"
    says 'no cross compiler' 'install gcc-aarch64-linux-gnu' env PATH="$few" "$BASH" "$top/tools/targets" check "$room/out2"
    ln -s /bin/true "$few/llvm-symbolizer"
    says 'no clang with libFuzzer' 'no clang has libFuzzer: install ' env -u FUZZ_CLANG PATH="$few" "$python" "$here/fuzz_coverage.py" --module "$out/nbt.bc"
    says 'no dpkg-deb' 'dpkg-deb is missing: install dpkg' env PATH="$few" "$python" "$top/tools/dist" "$out" "$out/lib" "$program" "$look" "$room/dist4"
    env -u CI PATH="$few" "$BASH" "$here/targets.sh" "$program" >"$room/output" 2>&1
    count $? 'without tools nothing is tried, and nothing fails'
    ! env CI=true PATH="$few" "$BASH" "$here/targets.sh" "$program" >"$room/output" 2>&1 && grep -q '^failed: all: CI has to install aarch64-linux-gnu-gcc$' "$room/output"
    count $? "where CI is true it does: $(tail -n 1 "$room/output")"
    rm "$few/rt"
    says 'no kit' 'install the kit first' env PATH="$few" "$BASH" "$top/tools/targets" check "$room/out2"
    echo >"$room/file"
    says 'a folder that is a file' "$room/file can't be written to" "$top/tools/targets" check "$room/file"
    ended node -e "$memory64" || says 'node without memory64' '--experimental-wasm-memory64' node --input-type=module -e '
        import { pathToFileURL } from "node:url";
        const { load } = await import(pathToFileURL(process.argv[1]));
        await load().catch((error) => { console.error(String(error)); process.exit(1); });' "$out/nbt.mjs"
}

# A node that has memory64, by a flag if it needs one.
node=(node)
command -v node >/dev/null && ! node -e "$memory64" && node=(node --experimental-wasm-memory64)
lacking=
for tool in aarch64-linux-gnu-gcc qemu-aarch64 node; do
    command -v $tool >/dev/null || lacking=${lacking:-$tool}
done
[ -n "$lacking" ] || "${node[@]}" -e "$memory64" 2>/dev/null || lacking='a node with memory64'
if [ -n "$lacking" ]; then
    lacks all "$lacking"
    finish
    exit
fi
part files files
part calls all_calls
part memory refused
part javascript javascript
needing tsc types types
packages
part missing missing
finish
