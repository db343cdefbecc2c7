#!/usr/bin/env bash
# Demonstrates cab: first before any proof, and then proved and built, on each document of
# examples/ that has lines.
set -euo pipefail
cd "$(dirname "$0")"
root=$PWD
folder=$(mktemp -d)
trap 'rm -rf "$folder"' EXIT

# cab as rt try runs it, before any proof
unproved_cab() {
    (cd "$root/crates/cab" && rt try -- "$@" 2> "$folder/log") || { cat "$folder/log"; exit 1; }
}

# cab as it is built once it is proved
proved_cab() {
    "$root/crates/cab/out/cab" "$@"
}

# the bytes of NAME.cab
bytes() {
    echo "\$ od -A d -t x1 $1.cab"
    od -A d -t x1 "$folder/$1.cab"
}

# built CAB NAME: builds NAME.cab of an example's text
built() {
    local example=$root/examples/$2
    echo
    echo "\$ cat text"
    cat "$example/text"
    echo "\$ cab build text $2.cab"
    "$1" build "$example/text" "$folder/$2.cab" < /dev/null
    bytes "$2"
}

# answered CAB NAME: carries out an example's lines in NAME.cab
answered() {
    local example=$root/examples/$2
    echo
    echo "\$ cat lines"
    cat "$example/lines"
    echo "\$ cab run $2.cab < lines"
    "$1" run "$folder/$2.cab" < "$example/lines" | tee "$folder/answers"
    bytes "$2"
    if ! cmp "$folder/answers" "$example/answers"; then
        echo "The answers differ from examples/$2/answers."
        exit 1
    fi
    echo "The answers are those of examples/$2/answers."
}

echo 'cab as it runs before any proof (rt try), first in an archive of the number 5:'
printf '\1\0\0\0\0\0\0\0\5\0\0\0\0\0\0\0\0\0\0\0\0\0\0\0' > "$folder/first.cab"
bytes first
answered unproved_cab first
built unproved_cab first

echo
echo 'Now cab is proved and built. The first time this may take an hour.'
if ! (cd crates/cab && rt run -- build "$root/examples/first/text" "$folder/proved.cab") < /dev/null > "$folder/log" 2>&1; then
    cat "$folder/log"
    echo 'cab was not proved'
    exit 1
fi
grep '^logic=proved' "$folder/log" | tail -n 1 | cut -d ' ' -f 1-2 || echo 'proved before, and nothing has changed since'

for name in first list settings catalogue publisher cache json; do
    built proved_cab "$name"
    answered proved_cab "$name"
done
