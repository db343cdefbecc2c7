# Sourced by the scripts that compare cab with other programs: the folder in which they work, cab itself, and the times
# and the memory that commands take.

root=$(cd "$(dirname "${BASH_SOURCE[0]}")/.." && pwd)
work=$(mktemp -d)
trap 'rm -rf "$work"' EXIT

# find_cab [CAB [PROCESSOR]]: sets cab to a program, and processor to what it was compiled for. Without CAB it is proved
# and built.
find_cab() {
    if [ $# -gt 0 ]; then
        cab=$(realpath "$1")
        processor=${2:-x86-64-v2}
        return
    fi
    cab=$root/crates/cab/out/cab
    # Without its stamp cab is built again, and the log names the processor.
    rm -f "$cab.stamp"
    if ! (cd "$root/crates/cab" && rt run -- build "$root/examples/first/text" "$work/first.cab") \
        < /dev/null > "$work/log" 2>&1; then
        cat "$work/log"
        exit 1
    fi
    processor=$(sed -n 's/^logic=proved.* cpu=\([^ ]*\).*/\1/p' "$work/log" | tail -n 1)
}

# compile_plain NAME [FLAG..]: compiles bench/plain.rs as the program NAME, for the same processor
compile_plain() {
    rustc --edition 2024 -C opt-level=3 -C codegen-units=1 ${processor:+-C target-cpu="$processor"} "${@:2}" \
        -o "$1" "$root/bench/plain.rs"
}

# prints the microseconds of the processor, in user and system mode, that a command takes from the file $1 to the file
# answers
spent() {
    local lines=$1 user system TIMEFORMAT='%U %S'
    shift
    read -r user system < <({ time "$@" < "$lines" > answers 2> errors; } 2>&1)
    cat errors >&2
    echo $(((10#${user/./} + 10#${system/./}) * 1000))
}

# prints the most kilobytes that a command held when it waits for more lines than those of the file $1, or for room in
# the pipe
held() {
    local lines=$1 id
    shift
    "$@" < pipe > answers &
    id=$!
    exec 3> pipe
    cat "$lines" >&3
    sleep 0.2
    until grep -q '^State:[[:space:]]*[SZ]' "/proc/$id/status"; do
        sleep 0.1
    done
    sed -n 's/^VmHWM:[[:space:]]*\([0-9]*\) kB/\1/p' "/proc/$id/status"
    exec 3>&-
    kill $id
    wait $id 2> /dev/null || true
}

least() {
    if [ "$1" -eq 0 ] || [ "$2" -lt "$1" ]; then echo "$2"; else echo "$1"; fi
}

seconds() {
    printf '%d.%03d s' $(($1 / 1000000)) $(($1 / 1000 % 1000))
}

ratio() {
    if [ "$2" -le 0 ]; then echo -; else printf '%d.%02d' $(($1 / $2)) $(($1 * 100 / $2 % 100)); fi
}

same() {
    if ! cmp -s "$1" "$2"; then
        echo "$1 and $2 differ"
        exit 1
    fi
}

memory_beside_plain() {
    local what=$1 by_cab by_plain
    shift
    by_cab=$(held /dev/null "$cab" "$@")
    by_plain=$(held /dev/null ./plain "$@")
    echo "most memory of $what: cab $by_cab kB, plain Rust $by_plain kB, ratio $(ratio "$by_cab" "$by_plain")"
}
