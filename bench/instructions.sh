#!/usr/bin/env bash
# Usage: bench/instructions.sh CAB [CAB..]. Counts, by callgrind, the instructions that each of these programs takes for a
# leaf to build and to open documents of 100,000 leaves: 20,000 records of five fields, and one ordered, hashed or kept map.
# What all build is compared. To open is `cab run` without lines; the whole program is counted.
set -eu
root=$(cd "$(dirname "$0")/.." && pwd)
source "$root/bench/documents.sh"
command -v valgrind > /dev/null || {
    echo 'skipped: valgrind is not installed'
    exit 0
}
leaves=100000
work=$(mktemp -d)
trap 'rm -rf "$work"' EXIT
programs=()
for program in "$@"; do
    programs+=("$(realpath "$program")")
done
cd "$work"

# prints the instructions of a command for each leaf
instructions() {
    valgrind --tool=callgrind --callgrind-out-file=/dev/null "$@" 2>&1 < /dev/null |
        awk -v leaves="$leaves" '/Collected :/ { printf "%d", $NF / leaves + 0.5 }'
}

for kind in records ordered hashed kept; do
    text_of "$kind" "$leaves" > text
    build=() open=()
    for number in "${!programs[@]}"; do
        build+=("$(instructions "${programs[number]}" build text "archive$number")")
        open+=("$(instructions "${programs[number]}" run "archive$number")")
        cmp "archive0" "archive$number"
    done
    echo "$kind: build ${build[*]}; open ${open[*]}"
done
