#!/usr/bin/env bash
# Times cab run over a million lines beside sed over the same lines, and prints the most memory that cab held; then
# times questions and edits of one element in lists of several lengths, and building and opening them; then compares the
# processor time and the memory of cab on documents of a million leaves, a list of numbers, a list of records and a list
# of uses of a thousand shared texts, and of a million nodes, a list of chains of options, with those of bench/plain.rs,
# the same two commands in plain Rust, and, if jq is installed, with the processor time of jq.
# Without rustc, cab is compared with sed alone.
# Each time is the least of three, and each processor time the least of five, those of a comparison taken in turns.
# Usage: bench/run.sh [CAB [PROCESSOR]]. Without CAB, a program that is there for PROCESSOR, cab is proved and built.
set -eu
source "$(dirname "$0")/programs.sh"
find_cab "$@"
cd "$work"
"$cab" build "$root/examples/first/text" first.cab > answers
mkfifo pipe

# ---- what is measured

# prints the microseconds that a command takes from the file $1 to the file answers
taken() {
    local lines=$1 began
    shift
    began=${EPOCHREALTIME/./}
    "$@" < "$lines" > answers
    echo $((${EPOCHREALTIME/./} - began))
}

# ---- lines

beside_sed() {
    local what=$1 lines=$2 by_cab=0 by_sed=0
    for _ in 1 2 3; do
        cp first.cab a.cab
        by_cab=$(least $by_cab "$(taken "$lines" "$cab" run a.cab)")
        by_sed=$(least $by_sed "$(taken "$lines" sed 's/.*/int 5/')")
    done
    echo "$what: cab $(seconds "$by_cab"), sed $(seconds "$by_sed"), ratio $(ratio "$by_cab" "$by_sed")"
    head -n 10000 "$lines" > few
    echo "most memory of cab: $(held few "$cab" run first.cab) kB for 10,000 of them," \
        "$(held "$lines" "$cab" run first.cab) kB for all"
}

yes get | head -n 1000000 > gets
seq 1 1000000 | sed 's/^/set int /' > sets
beside_sed '1,000,000 lines get' gets
beside_sed '1,000,000 lines set int N' sets

# ---- lists

# prints the least of three times that a command takes
timed() {
    local least_time=0
    for _ in 1 2 3; do
        least_time=$(least $least_time "$(taken /dev/null "$@")")
    done
    echo "$least_time"
}

# prints the time of a million lines about the last element, less that of opening the archive
lines_about_last() {
    local word=$1 length=$2 least_time=0 opening
    yes "$word #$((length - 1))" | head -n 1000000 > about-last
    opening=$(timed "$cab" run "list-$length.cab")
    for _ in 1 2 3; do
        cp "list-$length.cab" a.cab
        least_time=$(least $least_time "$(taken about-last "$cab" run a.cab)")
    done
    echo $((least_time - opening))
}

for length in 10 1000 100000 1000000; do
    { echo "list $length"; seq 1 $length | sed 's/^/int /'; } > "list-$length"
    building=$(timed "$cab" build "list-$length" "list-$length.cab")
    opening=$(timed "$cab" run "list-$length.cab")
    echo "a list of $length: built in $(seconds "$building"), opened in $(seconds "$opening");" \
        "1,000,000 lines get #N in $(seconds "$(lines_about_last get $length)")," \
        "set int 5 #N in $(seconds "$(lines_about_last 'set int 5' $length)")"
done

# ---- beside plain Rust and jq

if ! command -v rustc > /dev/null; then
    echo 'no rustc: cab was not compared with plain Rust'
    exit 0
fi
compile_plain plain
command -v jq > /dev/null || echo 'no jq: cab was not compared with it'
echo "beside plain Rust, both for the processor ${processor:-that rustc assumes}, user and system time:"

# the list of numbers, and the same number of leaves in records: each document as a text and as JSON
mv list-1000000 numbers
{ echo '['; seq -s , 1000000; echo ']'; } > numbers.json
awk 'BEGIN {
    print "list 200000" > "records"
    for (i = 1; i <= 200000; i++) {
        name = substr("record " i " of the catalogue", 1, 12 + i % 9)
        number = i * 7919 % 1000003
        is_even = i % 2 ? "false" : "true"
        printf "%s[\"%s\",\"no%d\",%d,-%d,%s]\n", i == 1 ? "[" : ",", name, i % 10000, i, number, is_even > "records.json"
        gsub(" ", "\\s", name)
        printf "list 5\ntext '\''%s\ntext '\''no%d\nint %d\nint -%d\nbool %s\n", name, i % 10000, i, number, is_even > "records"
    }
    print "]" > "records.json"
}'
# a list of a million uses of a thousand shared texts
awk 'BEGIN {
    print "list 1000000" > "uses"
    for (i = 1; i <= 1000000; i++) {
        text = "publisher " i * 7919 % 1000 " of the catalogue"
        printf "%s\"%s\"\n", i == 1 ? "[" : ",", text > "uses.json"
        gsub(" ", "\\s", text)
        print "shared '\''" text > "uses"
    }
    print "]" > "uses.json"
}'
# a list of 16,000 chains of 62 options, each around a number: a million nodes
awk 'BEGIN {
    print "list 16000" > "chains"
    for (i = 1; i <= 16000; i++) {
        for (j = 1; j <= 62; j++) {
            print "some" > "chains"
        }
        print "int " i > "chains"
    }
}'
# questions, edits, and the paths of the questions: 100,000 places of each document, in no order
awk 'BEGIN {
    for (i = 1; i <= 100000; i++) {
        place = i * 7919 % 1000000
        record = place % 200000
        field = int(place / 200000)
        print "get #" place > "numbers.questions"
        print "get #" record " #" field > "records.questions"
        print "set int " i " #" place > "numbers.edits"
        print "set int " i " #" record " #2" > "records.edits"
        print "get #" place > "uses.questions"
        print "[" place "]" > "numbers.paths"
        print "[" place "]" > "uses.paths"
        print "[" record "," field "]" > "records.paths"
    }
}'

# One command of both programs with the lines of the file $2, on files of the same names, in a folder for each; the
# files that they leave and their answers must be the same. jq is timed in turn with the words asked_of_jq, if there are
# any.
beside_plain() {
    local what=$1 lines=$2 by_cab=0 by_plain=0 by_jq=0
    shift 2
    for _ in 1 2 3 4 5; do
        cp "$document.cab" cab-files/a.cab
        cp "$document.cab" plain-files/a.cab
        by_cab=$(cd cab-files && least $by_cab "$(spent "$lines" "$cab" "$@")")
        by_plain=$(cd plain-files && least $by_plain "$(spent "$lines" ../plain "$@")")
        if [ ${#asked_of_jq[@]} != 0 ] && command -v jq > /dev/null; then
            by_jq=$(least $by_jq "$(spent /dev/null jq "${asked_of_jq[@]}")")
        fi
    done
    same cab-files/answers plain-files/answers
    same cab-files/a.cab plain-files/a.cab
    echo -n "$what: cab $(seconds "$by_cab"), plain Rust $(seconds "$by_plain"), ratio $(ratio "$by_cab" "$by_plain")"
    if [ "$by_jq" = 0 ]; then echo; else echo ", jq $(seconds "$by_jq"), ratio $(ratio "$by_cab" "$by_jq")"; fi
}

mkdir cab-files plain-files
for document in numbers records uses; do
    ./plain build $document $document.cab > answers
    asked_of_jq=(-c . $document.json)
    beside_plain "$document: build" /dev/null build ../$document a.cab
    asked_of_jq=()
    beside_plain "$document: open" /dev/null run a.cab
    # a shared text cannot be edited
    [ ! -e $document.edits ] || beside_plain "$document: open, and 100,000 edits" ../$document.edits run a.cab
    asked_of_jq=(-r --slurpfile paths $document.paths 'getpath($paths[])' $document.json)
    beside_plain "$document: open, and 100,000 questions" ../$document.questions run a.cab
    if command -v jq > /dev/null; then
        sed "s/^[a-z]* '*//; s/\\\\s/ /g" cab-files/answers > told
        same told answers
    fi
    memory_beside_plain "$document: build" build $document pipe
    memory_beside_plain "$document: open" run $document.cab
done

document=chains
./plain build chains chains.cab > answers
asked_of_jq=()
beside_plain 'chains: build' /dev/null build ../chains a.cab
beside_plain 'chains: open' /dev/null run a.cab
memory_beside_plain 'chains: build' build chains pipe
memory_beside_plain 'chains: open' run chains.cab
