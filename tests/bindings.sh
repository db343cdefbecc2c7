#!/usr/bin/env bash
# Compiles and runs what calls the static library of crates/cabinet_c: the examples in C and in Python, and tests/bindings.c,
# which makes the calls of cabinet.h that the rows here name. The static library is the one whose path is given, or else the
# one in crates/cabinet_c, which is proved and built first.
set -u
root=$(cd "$(dirname "$0")/.." && pwd)
. "$root/tests/bytes.sh"
crate=$root/crates/cabinet_c
work=$(mktemp -d)
trap 'rm -rf "$work"' EXIT
passed=0
failed=0

if [ $# -eq 0 ]; then
    echo 'proving and building cabinet_c'
    if ! (cd "$crate" && rt lib) < /dev/null > "$work/log" 2>&1; then
        cat "$work/log"
        echo 'cabinet_c was not built'
        echo '0 passed, 1 failed'
        exit 1
    fi
fi
library=$(realpath "${1:-$crate/out/libcabinet_c.a}")
cd "$work" || exit 1

# is_well NAME COMMAND..: runs a command, whose output is shown where it fails
is_well() {
    local name=$1
    shift
    if "$@" > output 2>&1; then
        echo "ok: $name"
        passed=$((passed + 1))
    else
        echo "FAILED: $name"
        head -n 20 output
        failed=$((failed + 1))
    fi
}

skip() {
    echo "skipped: $1"
}

has() {
    command -v "$1" > /dev/null
}

# ---- the codes

# codes: each status as crates/cabinet/src/calls/status.rt and as cabinet.h have it, `NAME CODE`
codes_of_crate() {
    sed -n 's/^    \([A-Z][A-Za-z0-9]*\) = \([0-9]*\),$/\1 \2/p' "$crate/../cabinet/src/calls/status.rt" |
        sed ':again; s/\([a-z0-9]\)\([A-Z]\)/\1_\2/; t again' | tr a-z A-Z
}

codes_of_header() {
    sed -n 's/^    CABINET_\([A-Z0-9_]*\) = \([0-9]*\),$/\1 \2/p' "$crate/cabinet.h"
}

# are_codes: both have all codes from 0 on, by the same names
are_codes() {
    codes_of_crate > of-crate
    codes_of_header > of-header
    [ "$(cut -d ' ' -f 2 of-crate)" = "$(seq 0 27)" ] && diff of-crate of-header
}

is_well 'the codes of the crate and of cabinet.h' are_codes

compiler=
for name in "${CC:-cc}" gcc clang; do
    has "$name" && compiler=$name && break
done
if [ -z "$compiler" ]; then
    skip 'C and Python call a library that a C compiler builds, and there is none here'
    echo "$passed passed, $failed failed"
    exit $((failed > 0))
fi
strict=(-std=c11 -O2 -g -Wall -Wextra -Wpedantic -Werror -I "$crate")

# watched COMMAND..: runs a command under valgrind, which fails where memory is used wrongly or not freed
watched() {
    valgrind -q --error-exitcode=9 --leak-check=full "$@"
}

# ---- the rows

# row WORD..: a row of tests/bindings.c; of a text that is not UTF-8 the words are bytes
row() {
    local IFS=$'\t'
    printf '%s\n' "$*"
}

# some_of TIMES TEXT: a text again and again
some_of() {
    printf "$2%.0s" $(seq "$1")
}

# holds TEXT HEX: what a text builds, which is accepted and has that text again
holds() {
    row build OK 0 "$1" "$2"
    row check OK "$2"
    row load OK "$2" "$1"
}

# unopened STATUS HEX: bytes that are refused
unopened() {
    row check "$1" "$2"
    row load "$1" "$2" ''
}

settings_rows() {
    holds 'int 5|' "$five"
    holds "ordered 2|'coffee|int 300|'tea|int 250|" "$coffee"
    holds "hashed 1|'a|int 1|" "$single"
    holds "kept 2|'z|int 1|'a|int 2|" "$z_and_a"
    holds 'wholes 1|int 5|list 2|whole 0|whole 0|' "$wholes"
    holds "list 2|shared 'hello\\sworld!|shared 'hello\\sworld!|" "$twice"
    holds "list 0|" 05000000fcffffff00000000000000000000000000000000
}

refused_rows() {
    unopened ACCESS ''
    unopened ACCESS "${five:2}"
    unopened ACCESS "${five/01/0a}"
    unopened TOO_DEEP "$five$(some_of 65 "$some")"
    unopened KEYS_NOT_ASCENDING "$(leaf a 1 a 2)$(map -180 2)"
    unopened WRONG_TAG "$(with "$single" 65 54 67 54)"
    unopened NOT_FOUND "$(with "$z_and_a" 13 55 16 55 48 61)"
}

text_rows() {
    row build TEXT_NOT_UTF8 1 $'\xff|' ''
    row build TEXT_NO_NEWLINE 1 'int 5' ''
    row build TEXT_END_TOO_EARLY 1 '' ''
    row build TEXT_END_TOO_EARLY 3 'list 2|int 7|' ''
    row build TEXT_KEY_EXPECTED 2 'ordered 1|int 1|' ''
    row build TEXT_BAD_ESCAPE 1 "text 'a b|" ''
    row build TEXT_KEY_ORDER 4 "ordered 2|'b|int 1|'a|int 2|" ''
    row build TEXT_KEY_REPEATED 4 "kept 2|'b|int 1|'b|int 2|" ''
    row build TEXT_UNKNOWN_HEAD 1 'float 5|' ''
    row build TEXT_BAD_NUMBER 1 'int 05|' ''
    row build TEXT_BAD_NUMBER 3 'list 2|int 7|int 08|' ''
    row build TEXT_UNKNOWN_WHOLE 1 'whole 0|' ''
    row build TEXT_TOO_DEEP 65 "$(some_of 65 'some|')int 1|" ''
    row build TEXT_REPEATED_WHOLE 3 'wholes 2|int 5|int 5|list 2|whole 0|whole 1|' ''
    row build TEXT_WHOLE_ORDER 3 'wholes 1|int 5|int 6|' ''
    row build TEXT_LINE_AFTER_END 2 'int 5|int 5|' ''
}

question_rows() {
    local line
    row ask OK "$five" get 'int 5|'
    row ask MISSING "$five" 'get #0' 'missing|'
    row ask MISSING "$five" "keys 'a" 'missing|'
    row ask WRONG "$five" keys 'wrong|'
    row ask WRONG "$single" "range 'a 'b" 'wrong|'
    row ask OK "$coffee" get 'ordered 2|'
    row ask OK "$coffee" "get 'tea" 'int 250|'
    row ask OK "$coffee" keys "keys 2 'coffee 'tea|"
    row ask OK "$coffee" "range 'd 'z" "keys 1 'tea|"
    row ask OK "$coffee" "range 'x 'y" 'keys 0|'
    row ask OK "$single" "get 'a" 'int 1|'
    row ask OK "$z_and_a" keys "keys 2 'z 'a|"
    row ask OK "$wholes" 'get #1' 'whole|'
    row ask OK "$wholes" 'get #1 ?' 'int 5|'
    row ask OK "$twice" 'get #1' "shared 'hello\\sworld!|"
    for line in '' ge gets 'get ' 'get|' 'get  #0' 'get #01' "get 'a b" "get '\\x" "range 'a" 'set int 6' 'set' "set int 6 'a"; do
        row ask BAD "$five" "$line" ''
    done
    row ask BAD "$five" $'get \'\xff' ''
}

edit_rows() {
    local line
    row set OK "$five" 'set int 6' "$six"
    row set MISSING "$five" 'set int 6 #0' "$five"
    row set REFUSED "$five" 'set bool true' "$five"
    row set REFUSED "$five" "set text '" "$five"
    row set OK "$coffee" "set int 1 'tea" "$(with "$coffee" 80 01)"
    row set MISSING "$coffee" "set int 1 'milk" "$coffee"
    row set REFUSED "$coffee" 'set int 1' "$coffee"
    row set OK "$single" "set int 2 'a" "$(with "$single" 16 02)"
    row set OK "$world" "set text 'WORLD 'a" "$(with "$world" 12 574f524c44)"
    row set REFUSED "$world" "set text 'words! 'a" "$world"
    row set REFUSED "$wholes" 'set int 6 #1 ?' "$wholes"
    row set REFUSED "$twice" "set text 'HELLO\\sWORLD! #1" "$twice"
    for line in '' set 'set int' 'set int 06' 'set int 6 ' 'set int 6|' 'set none' "set text 'a b" get keys "range 'a 'b" "get #0"; do
        row set BAD "$five" "$line" "$five"
    done
}

{
    settings_rows
    refused_rows
    text_rows
    question_rows
    edit_rows
} > rows

# told STATUS.. COMMAND..: a program of tests/bindings.c takes the rows well, and no calls returned these statuses alone
told() {
    local untold=$1
    shift
    "$@" < rows > told 2>&1 || { cat told; return 1; }
    cat told
    [ "$(sed -n 's/^not told: //p' told | xargs)" = "$untold" ]
}

is_well 'tests/bindings.c is compiled' \
    "$compiler" "${strict[@]}" -o bindings "$root/tests/bindings.c" "$crate/cabinet.c" "$library"
is_well "$(wc -l < rows) rows, and null pointers" told 'OUT_OF_MEMORY LIMIT' ./bindings
tail -n 1 output
available=$(sed -n 's/^MemAvailable: *\([0-9]*\) kB$/\1/p' /proc/meminfo 2> /dev/null)
if [ "${available:-0}" -gt 4000000 ]; then
    is_well 'a text past the limits of archives' ./bindings limit
else
    skip 'a text past the limits of archives takes 2 GB of memory, and less than twice that is known to be there'
fi
is_well 'cabinet.c is compiled over memory that is refused' \
    "$compiler" "${strict[@]}" -Dmalloc=counted_malloc -Drealloc=counted_realloc -Dfree=counted_free -c -o refused.o "$crate/cabinet.c"
is_well 'and linked to tests/bindings.c' "$compiler" "${strict[@]}" -o refused "$root/tests/bindings.c" refused.o "$library"
is_well 'the rows, with each allocation refused in turn' told LIMIT ./refused
tail -n 1 output
if has valgrind; then
    is_well 'the rows under valgrind' told 'OUT_OF_MEMORY LIMIT' watched ./bindings
    is_well 'the rows under valgrind, with each allocation refused in turn' told LIMIT watched ./refused
else
    skip 'valgrind is not installed, so no call runs under it'
fi

# ---- the examples

printf "built 656\nint 1280\nok\nint 1440\n'width\nint 1440\n" > session

# prints_session COMMAND..: a command prints the first session of README.md
prints_session() {
    "$@" > printed && diff session printed
}

text=$root/examples/settings/text
is_well 'examples/c/settings.c is compiled' \
    "$compiler" "${strict[@]}" -o settings "$root/examples/c/settings.c" "$crate/cabinet.c" "$library"
is_well 'examples/c/settings.c' prints_session ./settings "$text"
if has valgrind; then
    is_well 'examples/c/settings.c under valgrind' prints_session watched ./settings "$text"
fi
is_well 'the shared library is linked' "$compiler" "${strict[@]}" -shared -fPIC -o libcabinet.so "$crate/cabinet.c" "$library"
if has python3; then
    is_well 'examples/python/settings.py' prints_session python3 "$root/examples/python/settings.py" ./libcabinet.so "$text"
else
    skip 'python3 is not installed, so its example is not run'
fi

# The commands of README.md for C and Python, as they are written there, in a folder that has what they name.
mkdir -p clone/crates/cabinet_c/out
cp -r "$root/examples" clone
cp "$crate"/cabinet.[ch] clone/crates/cabinet_c
cp "$library" clone/crates/cabinet_c/out/libcabinet_c.a
sed -n '/^## From C and Python$/,/^## /s/^    \$ //p' "$root/README.md" > commands
prints_readme() {
    (cd clone && PATH=$work/bin:$PATH bash -eu ../commands) > printed && cat session session | diff - printed
}
if has python3 && has cc; then
    # the library is there already
    mkdir bin
    printf '#!/bin/sh\n' > bin/rt
    chmod +x bin/rt
    is_well "the $(wc -l < commands) commands of README.md" prints_readme
else
    skip 'the commands of README.md name cc and python3, and one of them is not installed'
fi

echo "$passed passed, $failed failed"
[ "$failed" -eq 0 ]
