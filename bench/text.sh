#!/usr/bin/env bash
# Usage: bench/text.sh [LEAVES]. Copies the texts of four documents, of 1,000,000 leaves each unless LEAVES is given,
# with cabinet_text_session, with bench/plain_text.rs, which does the same in plain Rust, for the same processor, and, if jq
# is installed, with jq -c . the same documents as JSON. Prints the least processor time of five runs, taken in turns,
# the ratios, and, if valgrind is installed, the instructions for a tenth of the leaves. The last line is the time for
# 30 wholes, each a list that has the one before it twice, which hold 2^30 leaves when each use is counted.
set -eu
leaves=${1:-1000000}
root=$(cd "$(dirname "$0")/.." && pwd)
source "$root/bench/documents.sh"
work=$(mktemp -d)
trap 'rm -rf "$work"' EXIT
copy=$root/crates/cabinet_text_session/out/cabinet_text_session

# Without its stamp the program is built again, and the log names the processor.
rm -f "${copy}.stamp"
if ! (cd "$root/crates/cabinet_text_session" && rt run) > "$work/log" 2>&1 < "$root/crates/cabinet_text_session/stdin"; then
    cat "$work/log"
    exit 1
fi
processor=$(sed -n 's/^logic=proved.* cpu=\([^ ]*\).*/\1/p' "$work/log" | tail -n 1)
cd "$work"
rustc --edition 2024 -C opt-level=3 -C codegen-units=1 ${processor:+-C target-cpu="$processor"} \
    -o plain "$root/bench/plain_text.rs"

# prints the milliseconds of the processor that a command takes from the file $1 to the file copied
spent() {
    local from=$1 user system TIMEFORMAT='%U %S'
    shift
    read -r user system < <({ time "$@" < "$from" > copied; } 2>&1)
    echo $((10#${user/./} + 10#${system/./}))
}

least() {
    if [ "$1" -eq 0 ] || [ "$2" -lt "$1" ]; then echo "$2"; else echo "$1"; fi
}

ratio() {
    if [ "$2" -eq 0 ]; then
        echo -
    else
        awk -v a="$1" -v b="$2" 'BEGIN { printf "%.2f", a / b }'
    fi
}

# prints the thousands of instructions that a command takes from the file $1
instructions() {
    local from=$1
    shift
    valgrind --tool=callgrind --callgrind-out-file=/dev/null "$@" < "$from" 2>&1 > copied |
        sed -n 's/.*Collected : \([0-9]*\)...$/\1/p'
}

# makes the section in which the program writes the file text again
ask() {
    { echo copy; cat text; } > section
}

echo "$leaves leaves, for the processor ${processor:-that rustc assumes}; times in milliseconds, instructions in thousands"
printf '%-10s%8s%8s%8s%8s%8s%12s%12s%8s\n' document copy plain ratio jq ratio copy plain ratio
for kind in ordered hashed kept records; do
    text_of $kind "$leaves" > text
    ask
    json_of $kind "$leaves" > json
    by_copy=0 by_plain=0 by_jq=0 ours=0 theirs=0
    for _ in 1 2 3 4 5; do
        by_copy=$(least $by_copy "$(spent section "$copy")")
        cmp text copied
        by_plain=$(least $by_plain "$(spent text ./plain)")
        cmp text copied
        if command -v jq > /dev/null; then
            by_jq=$(least $by_jq "$(spent json jq -c .)")
        fi
    done
    if command -v valgrind > /dev/null; then
        text_of $kind $((leaves / 10)) > text
        ask
        ours=$(instructions section "$copy")
        theirs=$(instructions text ./plain)
    fi
    printf '%-10s%8s%8s%8s%8s%8s%12s%12s%8s\n' $kind "$by_copy" "$by_plain" "$(ratio "$by_copy" "$by_plain")" \
        "$by_jq" "$(ratio "$by_copy" "$by_jq")" "$ours" "$theirs" "$(ratio "$ours" "$theirs")"
done

{
    printf 'wholes 30\nint 1\n'
    for ((number = 0; number < 29; number++)); do
        printf 'list 2\nwhole %d\nwhole %d\n' $number $number
    done
    printf 'list 2\nwhole 29\nwhole 29\n'
} > text
ask
by_copy=0
for _ in 1 2 3 4 5; do
    by_copy=$(least $by_copy "$(spent section "$copy")")
    cmp text copied
done
printf '%-10s%8s\n' wholes "$by_copy"
