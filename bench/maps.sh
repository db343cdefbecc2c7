#!/usr/bin/env bash
# Usage: bench/maps.sh [CAB CAB_SHOW [PROCESSOR]]. Compares the processor time of cab and cab_show on documents of a
# million leaves in maps, one map and a list of 200,000 maps of five, all of them ordered, all hashed or all kept, with
# that of bench/plain.rs, the same commands in plain Rust. Where they are installed, cab_show is also compared with jq on
# the same document as JSON, and cab, on ordered maps, with jq and with sqlite3 on a table of the same keys. The table is
# built by an import, and each question is one statement. Archives, answers and texts are compared. Last it opens an
# archive of few lists and texts, which has no maps. Without CAB and CAB_SHOW, programs that are there for PROCESSOR, they
# are proved and built. Each time is the least of five, those of a comparison taken in turns. A ratio is that of the time
# of cab or cab_show to the one before it, with its goal in brackets.
set -eu
source "$(dirname "$0")/programs.sh"
source "$(dirname "$0")/documents.sh"
find_cab ${1:+"$1"} ${3:+"$3"}
show=$root/crates/cab_show/out/cab_show
if [ $# -gt 1 ]; then
    show=$(realpath "$2")
elif ! (cd "$root/crates/cab_show" && rt run -- "$work/first.cab") < /dev/null > "$work/log" 2>&1; then
    cat "$work/log"
    exit 1
fi
cd "$work"
mkfifo pipe
compile_plain plain
compile_plain plain-pairs --cfg pair_by_pair
has_jq=$(command -v jq || echo)
has_sqlite=$(command -v sqlite3 || echo)
echo "for the processor ${processor:-that rustc assumes}, user and system time"
mkdir {cab,plain,jq,sqlite}-files

# ---- the documents

# each document as a text, as JSON and as rows of a table, of the records a row for each leaf
leaves=1000000
text_of ordered $leaves > map
json_of ordered $leaves > map.json
rows_of ordered $leaves > map.rows
text_of records $leaves > records
json_of records $leaves > records.json
rows_of records $leaves | awk -F '\t' 'BEGIN { split("active id mail name score", fields, " ") } {
    for (i = 1; i <= 5; i++)
        printf "%s\t%s\t%s\n", $1, fields[i], $(i + 1)
}' > records.rows
cat > map.table << 'END'
pragma synchronous = off;
pragma journal_mode = off;
create table leaves (key text primary key, value numeric) without rowid;
.mode tabs
.import ../map.rows leaves
END
cat > records.table << 'END'
pragma synchronous = off;
pragma journal_mode = off;
create table leaves
    (record integer, key text, value numeric, primary key (record, key)) without rowid;
.mode tabs
.import ../records.rows leaves
END

# ---- the lines, and statements that request the same

# 100,000 places of each document, in no order
write_lines $leaves 100000
for document in map records; do
    paths $document.get > $document.paths
    statements $document.get > $document.get.sql
    { echo 'begin;'; statements $document.set; echo 'commit;'; } > $document.set.sql
done
# of its maps all keys, and ranges
awk -v leaves=$leaves 'BEGIN {
    list = "select key from leaves where"
    for (i = 1; i <= 100000; i++) {
        record = i * 7919 % leaves % (leaves / 5)
        print "keys #" record > "records.keys"
        printf "%s record = %d order by key;\n", list, record > "records.keys.sql"
        print "range '\''id '\''name #" record > "records.range"
        printf "%s record = %d and key >= '\''id'\'' and key < '\''name'\'' order by key;\n", list, record \
            > "records.range.sql"
    }
    print "keys" > "map.keys"
    print "select key from leaves order by key;" > "map.keys.sql"
    for (i = 1; i <= 1000; i++) {
        first = i * 7919 % (leaves - 100) + 1
        low = sprintf("key%07d", first)
        high = sprintf("key%07d", first + 100)
        printf "range '\''%s '\''%s\n", low, high > "map.range"
        printf "%s key >= '\''%s'\'' and key < '\''%s'\'' order by key;\n", list, low, high > "map.range.sql"
    }
}'

# ---- the comparisons

# The words of jq, and the statements of sqlite3 on a copy of the document's table, that request the same as the lines
# of a comparison; nothing where there are none. The goals of the ratios to plain Rust, jq and sqlite3.
jq_words=()
statements=
plain_goal=1.1
jq_goal=
sqlite_goal=

# prints the ratio $1 to $2, and a goal
beside() {
    echo -n "ratio $(ratio "$1" "$2")${3:+ ($3)}"
}

# taken_by WORD..: measures by_cab, by_plain, by_jq and by_sqlite, the times that programs take to do the same, cab and
# plain Rust by the command WORD.. with the lines of the file $lines
taken_by() {
    by_cab=0 by_plain=0 by_jq=0 by_sqlite=0
    for _ in 1 2 3 4 5; do
        cp "$document.cab" cab-files/a.cab
        cp "$document.cab" plain-files/a.cab
        by_cab=$(cd cab-files && least $by_cab "$(spent "$lines" "$cab" "$@")")
        by_plain=$(cd plain-files && least $by_plain "$(spent "$lines" ../plain "$@")")
        if [ ${#jq_words[@]} != 0 ] && [ "$has_jq" ]; then
            by_jq=$(cd jq-files && least $by_jq "$(spent /dev/null jq "${jq_words[@]}")")
        fi
        if [ "$statements" ] && [ "$has_sqlite" ]; then
            rm -f sqlite-files/a.db
            [ ! -e "$document.db" ] || cp "$document.db" sqlite-files/a.db
            by_sqlite=$(cd sqlite-files && least $by_sqlite "$(spent "../$statements" sqlite3 -batch a.db)")
        fi
    done
    same cab-files/answers plain-files/answers
    same cab-files/a.cab plain-files/a.cab
}

# prints what was taken, but for the end of the line
print_taken() {
    echo -n "$kind $document: $1: cab $(seconds "$by_cab"), plain Rust $(seconds "$by_plain")," \
        "$(beside "$by_cab" "$by_plain" "$plain_goal")"
    [ "$by_jq" = 0 ] || echo -n "; jq $(seconds "$by_jq"), $(beside "$by_cab" "$by_jq" "$jq_goal")"
    [ "$by_sqlite" = 0 ] ||
        echo -n "; sqlite3 $(seconds "$by_sqlite"), $(beside "$by_cab" "$by_sqlite" "$sqlite_goal")"
}

# prints the time $1 less the time $2, or 0
less() {
    echo $(($1 > $2 ? $1 - $2 : 0))
}

# asked WHAT KIND: compares lines of a kind after opening, also without the times of opening
asked() {
    local cab_alone plain_alone
    lines=$work/$document.$2
    [ $kind != ordered ] || statements=$document.$2.sql
    taken_by run a.cab
    print_taken "open, and $1"
    cab_alone=$(less "$by_cab" "$cab_opens")
    plain_alone=$(less "$by_plain" "$plain_opens")
    echo -n "; less opening: cab $(seconds "$cab_alone"), plain Rust $(seconds "$plain_alone")," \
        "$(beside "$cab_alone" "$plain_alone")"
    [ "$by_sqlite" = 0 ] || echo -n "; beside sqlite3 $(beside "$cab_alone" "$by_sqlite" "$sqlite_goal")"
    echo
}

# answered PROGRAM COMMAND..: the answers of cab, as the command writes them, must be those of a program that is there
answered() {
    local answers=$1-files/answers
    shift
    [ ! -e "$answers" ] || { "$@" cab-files/answers > told && same told "$answers"; }
}

keys() {
    sed "s/^keys [0-9]* '//; s/ '/\n/g" "$@"
}

# compares what it takes to print the text of the document that the archive holds
shown() {
    by_cab=0 by_plain=0 by_jq=0 by_sqlite=0
    for _ in 1 2 3 4 5; do
        by_cab=$(least $by_cab "$(spent /dev/null "$show" $document.cab)")
        same answers $document
        by_plain=$(least $by_plain "$(spent /dev/null ./plain show $document.cab)")
        same answers $document
        [ ! "$has_jq" ] || by_jq=$(least $by_jq "$(spent /dev/null jq . $document.json)")
    done
    jq_goal=0.3
    print_taken 'load, and print'
    jq_goal=
    echo
}

# compared DOCUMENT: compares the commands on a document, and on lines for it
compared() {
    document=$1
    statements=
    ./plain build $document $document.cab > answers

    lines=/dev/null
    if [ $kind = ordered ]; then
        jq_words=(-c . ../$document.json)
        jq_goal=0.4
        statements=$document.table
    fi
    taken_by build ../$document a.cab
    print_taken build
    [ ! -e sqlite-files/a.db ] || mv sqlite-files/a.db $document.db
    by_pairs=0
    for _ in 1 2 3 4 5; do
        by_pairs=$(least $by_pairs "$(spent /dev/null ./plain-pairs build $document pairs.cab)")
    done
    same pairs.cab $document.cab
    echo "; plain Rust pair by pair $(seconds "$by_pairs"), $(beside "$by_cab" "$by_pairs")"

    jq_words=()
    jq_goal=
    statements=
    taken_by run a.cab
    print_taken open
    echo
    cab_opens=$by_cab
    plain_opens=$by_plain
    shown

    if [ $kind = ordered ]; then
        sqlite_goal=0.15
        jq_words=(-r --slurpfile paths ../$document.paths 'getpath($paths[])' ../$document.json)
        jq_goal=0.15
    fi
    asked '100,000 get' get
    answered jq heads
    answered sqlite heads
    jq_words=()
    if [ $kind$document = keptmap ]; then
        asked 'keys of all' keys
    elif [ $kind$document = orderedmap ]; then
        asked 'keys of all' keys
        answered sqlite keys
        asked '1,000 ranges of a hundred keys' range
        answered sqlite keys
    elif [ $kind = ordered ]; then
        asked '100,000 keys of a map of five' keys
        answered sqlite keys
        asked '100,000 ranges of two keys' range
        answered sqlite keys
    fi
    sqlite_goal=
    asked '100,000 set int' set

    memory_beside_plain "$kind $document: build" build $document pipe
    memory_beside_plain "$kind $document: open" run $document.cab
}

for kind in ordered hashed kept; do
    for document in map records; do
        sed -i "s/^\(ordered\|hashed\) /$kind /" $document
        compared $document
    done
    rm -f ./*-files/*
done

# ---- an archive of few regions without maps

{
    echo 'list 3'
    for i in {1..3}; do
        echo 'list 10'
        for j in {1..10}; do
            echo "text 'number\s$i\sof\s$j"
        done
    done
} > few
echo 'int 5' > one
./plain build few few.cab > answers
./plain build one one.cab > answers

# runs a program 500 times on an archive, without lines
opened() {
    for _ in {1..500}; do
        "$1" run "$2"
    done
}

# prints the instructions of a program that opens an archive
instructions() {
    valgrind --tool=callgrind --callgrind-out-file=/dev/null "$1" run "$2" 2>&1 < /dev/null |
        sed -n 's/.*Collected : \([0-9]*\)$/\1/p'
}

by_cab=0 by_plain=0
for _ in 1 2 3 4 5; do
    by_cab=$(least $by_cab "$(spent /dev/null opened "$cab" few.cab)")
    by_plain=$(least $by_plain "$(spent /dev/null opened ./plain few.cab)")
done
echo -n "few: 500 times open 30 texts in three lists: cab $(seconds "$by_cab"), plain Rust $(seconds "$by_plain")," \
    "$(beside "$by_cab" "$by_plain" "$plain_goal")"
if command -v valgrind > /dev/null; then
    by_cab=$(($(instructions "$cab" few.cab) - $(instructions "$cab" one.cab)))
    by_plain=$(($(instructions ./plain few.cab) - $(instructions ./plain one.cab)))
    echo "; instructions of one, less those of opening one number: cab $by_cab, plain Rust $by_plain," \
        "$(beside "$by_cab" "$by_plain")"
else
    echo
fi
