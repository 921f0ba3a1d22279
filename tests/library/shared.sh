# Read by tests/library.sh and tests/targets.sh: what both do with the library.
top=$(realpath "$here/..")
# Half a million rows take a minute and more; a slow machine has ten.
PATIENCE=600
strict=(-std=c11 -O1 -g -Wall -Wextra -Wpedantic -Werror "-I$top/include")
sanitized=(-fsanitize=address,undefined -fno-sanitize-recover=all)
# tests/library/calls.c, over the rows of calls.def.
wrapped=(-Wl,--wrap=malloc,--wrap=realloc,--wrap=free)
rows=("$here"/library/{calls,harness,cases,hostile,bounds,corpus,memory}.c "${wrapped[@]}")

# same WANTED NAME: whether standard input is what is wanted.
same() {
    diff <(printf '%s\n' "$1") - >"$room/difference"
    count $? "$2: $(head -c 300 "$room/difference")"
}

# needing TOOL PART COMMAND: a part that is left out where a tool isn't there.
needing() { if command -v "$1" >/dev/null; then part "$2" "$3"; else lacks "$2" "$1"; fi; }

# The calls of the library, and beside them what stands in the header alone.
calls() { grep -oE '^(uint32_t|void) nbt_[a-z_]+' "$top/include/nbt.h" | cut -d ' ' -f 2 | sort; }
all_of_header() { grep -oE '\bnbt_[a-z_]+\(' "$top/include/nbt.h" | tr -d '(' | sort -u; }

# wanted FILE: what an example prints, which its last comment says.
wanted() { awk '/^ \*\/$/ { shown = 0 } shown { sub(/^ \* ?/, ""); print } /^\/\* Prints:$/ { shown = 1 }' "$1"; }

# block LANGUAGE FILE [NUMBER]: a block of a page in this language, the first of them if no number is given.
block() {
    awk -v mark="\`\`\`$1" -v wanted="${3:-1}" '
        /^```$/ { shown = 0 }
        shown
        $0 == mark && ++found == wanted { shown = 1 }' "$2"
}

# well_made PREFIX FOLDER: what libnbt.so.0 and libnbt.a of a folder define and need, by binutils whose names begin so.
well_made() {
    "$1nm" -D --defined-only "$2/libnbt.so.0" | awk '{ print $3 }' | sort | same "$(calls)" 'libnbt.so.0 exports the calls of the header'
    "$1nm" -g --defined-only "$2/libnbt.a" | awk 'NF == 3 { print $3 }' | sort | same "$(calls)" 'so does libnbt.a'
    "$1readelf" -d "$2/libnbt.so.0" | sed -nE 's/.*\((SONAME|NEEDED)\).*\[(.*)\]/\2/p' | sort \
        | same $'libc.so.6\nlibnbt.so.0' 'the soname, and the C library alone that is needed'
    "$1readelf" -lW "$2/libnbt.so.0" | grep GNU_STACK | grep -c E | same 0 'the stack of its callers is not made executable'
}

# example FILE WAY COMPILER WORD..: an example that is compiled and linked by these words, and run by ${run[@]}, prints what it says alone.
example() {
    local name
    name="$(basename "$1"), $2"
    "$3" "${strict[@]}" -o "$room/example" "${@:4}" >"$room/log" 2>&1
    count $? "$name: $(head -n 1 "$room/log")"
    ended "${run[@]}" "$room/example" 2>"$room/errors" | sed 's/ *$//' | same "$(wanted "$1")" "$name"
    [ ! -s "$room/errors" ]
    count $? "$name: $(head -n 1 "$room/errors")"
}

# compiled NAME COMPILER ARCHIVE OPTION..: tests/library/calls.c, compiled so, as $room/NAME.
compiled() {
    "$2" "${strict[@]}" -o "$room/$1" "${rows[@]}" "${@:4}" "$3" >"$room/log" 2>&1
    count $? "tests/library/calls.c, $1: $(head -n 1 "$room/log")"
}

# rows_of SEED COUNT: the rows of what the calls should answer of payloads, those of cases.txt and of limits before, and what of them the
# packages are asked: $room/rows and $room/asked.
rows_of() {
    "$here/captures/payloads.py" --seed "$1" library "$2" | "$here/library/payload_rows.py" cases limits >"$room/rows"
    [ "$(grep -c '^line$' "$room/rows")" -eq "$2" ] && [ "$(wc -l <"$room/rows")" -gt $((35 * $2)) ]
    count $? "the rows of $2 payloads"
    "$here/library/rows.py" <"$room/rows" >"$room/asked"
}

# judged NAME ROWS COMMAND..: each call answers what its row says. What they answer is in $room/output.
judged() {
    ended "${@:3}" <"$2" >"$room/output" 2>"$room/errors" && tail -n 1 "$room/errors" | grep -qE '^[1-9][0-9]* rows, '
    count $? "calls answer what rows say, $1: $(tail -n 3 "$room/errors" | head -c 500)"
}

# each_refused NAME COMMAND..: in the calls of a few payloads each request for memory is refused in turn: the call that meets it says so,
# changes nothing, and then does what it should. A case is a request.
each_refused() {
    judged "with each request refused, $1" "$room/few" "${@:2}" refused
    refusals
}

# refusals: as many cases more as requests were refused, by the last line of errors.
refusals() { passed=$((passed + 10#0$(sed -nE '$s/^(.* )?([0-9]+) refusals$/\2/p' "$room/errors"))); }

# few_payloads: a datagram in two pieces, a response, a registration, and two packets of port 139: $room/few.
few_payloads() {
    {
        ended "$program" build group 10.0.0.5:138/0001 'JOE<00>' 'FRED<20>' 68656c6c6f2c2046524544 6 | tac
        ended "$program" build response 0006 8500 'FRED<20>' 0020 300 60000a0000050000c0a80001
        ended "$program" build registration 0002 'FRED<20>' 300000 0000 10.0.0.5
        ended "$program" build request 'FRED<20>' 'JOE<00>'
        ended "$program" build retarget 10.0.0.7 139
    } | sed 's/ 0 / /' | "$here/library/payload_rows.py" >"$room/few"
    [ "$(grep -c '^line$' "$room/few")" -eq 6 ]
    count $? 'the rows of a few payloads'
}

# said FILE COMMAND..: the payloads that a command prints, and what a slow model reads in them.
said() {
    "${@:2}" | PYTHONPATH=$here ended python3 -m model.values >"$1"
    count $? "what tests/model/values.py reads in $(wc -l <"$1") payloads"
}

# alike NAME WANTED COMMAND..: what a command prints is what a file has, and it ends well.
alike() {
    ended "${@:3}" >"$room/output" 2>"$room/errors"
    count $? "$1: $(tail -n 1 "$room/errors")"
    diff "$2" "$room/output" >"$room/difference"
    count $? "$1 answers the same: $(head -c 300 "$room/difference")"
}

# answers NAME FILE COMMAND..: a caller of the library answers what stands behind the tabs of a file, each line of which is a case.
answers() {
    cut -f 2 "$2" >"$room/wanted"
    cut -f 1 "$2" | alike "$1" "$room/wanted" "${@:3}"
    [ -s "$room/difference" ] || passed=$((passed + $(wc -l <"$2")))
}
