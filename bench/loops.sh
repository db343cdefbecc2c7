#!/usr/bin/env bash
# Usage: bench/loops.sh NAME. Proves and builds the static library crates/archive_bench, compiles bench/NAME.rs for the
# same processor, and runs it.
set -eu
root=$(cd "$(dirname "$0")/.." && pwd)
crate=$root/crates/archive_bench
work=$(mktemp -d)
trap 'rm -rf "$work"' EXIT

if ! (cd "$crate" && rt lib) < /dev/null > "$work/log" 2>&1; then
    cat "$work/log"
    exit 1
fi
processor=$(sed -n 's/^logic=proved.* cpu=\([^ ]*\).*/\1/p' "$work/log" | tail -n 1)

rustc --edition 2024 -C opt-level=3 -C codegen-units=1 ${processor:+-C target-cpu="$processor"} \
    -L "native=$crate/out" -o "$work/loops" "$root/bench/$1.rs"
echo "both for the processor ${processor:-that rustc assumes}"
"$work/loops"
