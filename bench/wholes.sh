#!/usr/bin/env bash
# Usage: bench/wholes.sh [CAB CAB_SHOW]. Times documents of doubled wholes: the first whole is a number, each next one, and the
# root, a list that has the one before it twice, so that N of them are 24 + 72 * N bytes and have 2^N leaves if each use is
# counted. Of 10, 20 and 30 of them it prints the time to build, to open, to open and answer the question for a leaf, and to
# load and print (cab_show), the start of the program included; then the same of a list of 1,000 such documents, each with a
# number of its own, and the time that one byte of their archives takes, which is to be about the same for 10, 20 and 30: were
# each whole visited at each of its places, it would double with each whole. Last come three lists of 1,000,000 uses of one
# whole, alone, with an option around each use, and of a chain of 60 wholes. Without CAB and CAB_SHOW they are proved and built.
# Each time is the least processor time of five runs, taken in turns.
set -eu
source "$(dirname "$0")/programs.sh"
find_cab ${1:+"$1"}
show=$root/crates/cab_show/out/cab_show
if [ $# -gt 1 ]; then
    show=$(realpath "$2")
elif ! (cd "$root/crates/cab_show" && rt run -- "$work/first.cab") < /dev/null > "$work/log" 2>&1; then
    cat "$work/log"
    exit 1
fi
cd "$work"
echo "for the processor ${processor:-that rustc assumes}, user and system time"

# ---- the documents

# doubled N CHAINS: the text of CHAINS chains of N doubled wholes, in a list if they are more than one
doubled() {
    awk -v count="$1" -v chains="$2" 'BEGIN {
        print "wholes", count * chains
        for (chain = 0; chain < chains; chain++) {
            print "int", chain
            for (i = chain * count; i < (chain + 1) * count - 1; i++)
                printf "list 2\nwhole %d\nwhole %d\n", i, i
        }
        if (chains > 1)
            print "list", chains
        for (last = count - 1; last < count * chains; last += count)
            printf "list 2\nwhole %d\nwhole %d\n", last, last
    }'
}

# uses HEAD WHOLES: the text of a list of 1,000,000 uses of the last of so many wholes, each of which has the one before it;
# HEAD is a line before each use
uses() {
    awk -v head="$1" -v wholes="$2" 'BEGIN {
        print "wholes", wholes
        print "int 1"
        for (i = 0; i < wholes - 1; i++)
            print "whole", i
        print "list 1000000"
        for (i = 1; i <= 1000000; i++)
            print head "whole", wholes - 1
    }'
}

# ---- what is measured

# measure WHAT TEXT SIZE LINES ANSWERS: the times of a document's text, whose archive must have this size, and the answers to
# the lines of a file
measure() {
    local what=$1 text=$2 size=$3 by_build=0 by_open=0 by_ask=0 by_show=0
    for _ in 1 2 3 4 5; do
        by_build=$(least "$by_build" "$(spent /dev/null "$cab" build "$text" a.cab)")
        by_open=$(least "$by_open" "$(spent /dev/null "$cab" run a.cab)")
        by_ask=$(least "$by_ask" "$(spent "$4" "$cab" run a.cab)")
        same answers "$5"
        by_show=$(least "$by_show" "$(spent /dev/null "$show" a.cab)")
        same answers "$text"
    done
    if [ "$(stat -c %s a.cab)" != "$size" ]; then
        echo "$what: the archive has $(stat -c %s a.cab) bytes, and not $size"
        exit 1
    fi
    echo "$what, $size bytes: build $(seconds "$by_build"), open $(seconds "$by_open"), open and answer $(seconds "$by_ask")," \
        "load and print $(seconds "$by_show")"
    if [ "$size" -gt 100000 ]; then
        awk -v size="$size" -v b="$by_build" -v o="$by_open" -v s="$by_show" 'BEGIN {
            printf "  for each byte: build %.2f ns, open %.2f ns, load and print %.2f ns\n",
                b * 1000 / size, o * 1000 / size, s * 1000 / size
        }'
    fi
}

for count in 10 20 30; do
    doubled $count 1 > text
    echo "get$(printf ' #0 ?%.0s' $(seq $count))" > lines
    echo 'int 0' > wanted
    measure "$count doubled wholes" text $((24 + 72 * count)) lines wanted
done
for count in 10 20 30; do
    doubled $count 1000 > text
    echo "get #999$(printf ' #0 ?%.0s' $(seq $count))" > lines
    echo 'int 999' > wanted
    # of each chain the number, its lists but the last with their elements, and the elements of the last; the lists at the end
    measure "1,000 times $count doubled wholes" text $((1000 * (24 + 72 * count) + 24)) lines wanted
done
echo 'get #999999 ?' > lines
echo 'int 1' > wanted
uses '' 1 > text
measure '1,000,000 uses of a whole' text $((24 + 24000000 + 24)) lines wanted
echo 'get #999999 ? ?' > lines
uses $'some\n' 1 > text
measure '1,000,000 options of a whole' text $((24 + 48000000 + 24)) lines wanted
echo "get #999999$(printf ' ?%.0s' {1..60})" > lines
uses '' 60 > text
measure '1,000,000 uses of the last of 60 wholes' text $((60 * 24 + 24000000 + 24)) lines wanted
