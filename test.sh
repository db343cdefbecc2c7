#!/usr/bin/env bash
# Proves every crate and runs every test: the count of crates and of paths through crates.txt, the names in the pages,
# the toolchain's merge gate, the edits that the prover must refuse, the programs on files, also where calls are refused, what
# examples/ has for JSON and for many archives, and the calls from C and Python. The last line reports how many processor
# minutes that took.
set -u
cd "$(dirname "$0")" || exit 1
log=$(mktemp)
outputs=$(mktemp -d)
gate=$(mktemp -d)
trap 'rm -rf "$log" "$outputs" "$gate"' EXIT

# Prints a line, and the processor minutes that this script's commands have taken so far.
say() {
    # in this shell, since a shell in a pipe would report its own times
    times > "$log"
    awk -v line="$1" -F '[ms ]+' 'NR == 2 { printf "%s; %.1f processor minutes\n", line, $1 + $3 + ($2 + $4) / 60 }' "$log"
}

echo '== the names in crates.txt'
if ! tests/paths.sh; then
    say 'crates.txt has too many crates or paths'
    exit 1
fi

echo '== the names in docs/MAP.md and docs/FORMAT.md'
if ! tests/map.sh; then
    say 'a name or an edit is not where it is said to be'
    exit 1
fi

echo '== the merge gate'
# The gate tries each edit by a check of a whole crate, which takes more than all else together. tests/edits.sh tries several
# at once over what the gate has proved, so the gate runs in a copy without them.
tar --create --exclude='./.git' --exclude='./crates/*/out' --exclude='./crates/*/must-fail' . | tar --extract --directory "$gate"
(cd "$gate" && rt ci) < /dev/null | tee "$log"
status=${PIPESTATUS[0]}
if [ "$status" -ne 0 ] || ! [[ $(tail -n 1 "$log") =~ ^[0-9]+\ passed,\ 0\ failed$ ]]; then
    say 'the merge gate failed'
    exit 1
fi
say 'the merge gate passed'

echo '== the edits that the prover must refuse'
if ! tests/edits.sh "$gate"; then
    say 'an edit was not refused'
    exit 1
fi
say 'each edit was refused'

titles=()
faults=()
scripts=()

# Starts a script beside the others: what it runs, what is wrong if it fails, and its command.
start() {
    titles+=("$1")
    faults+=("$2")
    "${@:3}" > "$outputs/${#scripts[@]}" 2>&1 &
    scripts+=("$!")
}

# the programs that the merge gate proved and built
for program in cab cab_show cab_edit; do
    mkdir -p "crates/$program/out" && cp "$gate/crates/$program/out/$program" "crates/$program/out/$program"
done
cab=$PWD/crates/cab/out/cab
show=$PWD/crates/cab_show/out/cab_show
edit=$PWD/crates/cab_edit/out/cab_edit
start 'the programs on files' 'a program failed' tests/program.sh "$cab" "$show" "$edit"
start 'documents that grow, beside a reference' 'a document is other than that of the reference' tests/growing.py "$cab" "$show" "$edit"
start 'the filters to and from JSON' 'a filter failed' tests/json.sh "$cab" "$show"
start 'many archives in a database' 'the archives in a database failed' tests/many.sh "$cab" "$show"
start 'the programs with refused calls' 'a refused call was not told' \
    tests/refused.sh "$cab" "$show" "$edit" "$gate/crates/cabinet_refused/out/cabinet_refused" "$gate/crates/archive_example/out/archive_example"
# The merge gate leaves no static library. `rt lib` builds it over the libraries that `rt check` has left here; where there
# are none it would prove each of them once more.
if [ -f crates/cabinet/out/rlib/stamp ]; then
    start 'the calls from C and Python' 'a call from C failed' tests/bindings.sh
else
    start 'the calls from C and Python' '' echo 'skipped: rt check has left no libraries here; tests/bindings.sh proves them and runs the calls'
fi

fault=
for number in "${!scripts[@]}"; do
    wait "${scripts[number]}" || fault=${fault:-${faults[number]}}
    echo "== ${titles[number]}"
    cat "$outputs/$number"
done
if [ -n "$fault" ]; then
    say "$fault"
    exit 1
fi

say 'all passed'
