#!/usr/bin/env bash
# Usage: bench/peers.sh [-l LEAVES] [-q QUESTIONS] [-o FILE] [-c CAB [-p PROCESSOR]]. Compares this project with other
# formats on four documents of LEAVES leaves (1,000,000): a list of records of five fields, and one ordered, one hashed
# and one kept map.
#   Programs, from a file to a file: cab, sqlite3 and jq build each document from a text, a table or JSON, and open it for
#   QUESTIONS questions (100,000) and for as many edits.
#   In a process, from bytes in memory: the calls of crates/cabinet_c, rkyv, FlatBuffers and SQLite build each document,
#   check it, and answer as many questions, of which half find their key in maps, and edit as many numbers in place.
#   Types that a program knows, in a process and without documents and lines: crates/archive_bench and rkyv write maps and
#   records, search the maps, beside Rust's own, and check the records.
#   Sizes, and what each checks before it trusts bytes.
# What all of them find is compared, before and after the edits, and a difference ends the run. A time is processor time,
# user and system: of programs the least of five runs, of calls the least of all rounds, those of a row taken in turns. A
# ratio is that of the first time of a row to the one before it, with its goal in brackets. With -o the figures are
# written to FILE too, for bench/peers_plot.py to draw.
# Without CAB, a program that is there for PROCESSOR, it is proved and built, and so are the libraries; with it, libraries
# are taken as they are. What is not installed is skipped: it wants the packages jq, sqlite3, libsqlite3-dev,
# librust-rkyv-dev, libflatbuffers-dev, flatbuffers-compiler and g++ of Debian, and rustc and cargo.
set -euo pipefail
source "$(dirname "$0")/programs.sh"
source "$(dirname "$0")/documents.sh"

leaves=1000000
count=100000
figures=/dev/null
program=
cpu=
while getopts l:q:o:c:p: option; do
    case $option in
        l) leaves=$OPTARG ;;
        q) count=$OPTARG ;;
        o) figures=$(realpath "$OPTARG") && true > "$figures" ;;
        c) program=$OPTARG ;;
        p) cpu=$OPTARG ;;
        *) exit 2 ;;
    esac
done
if [ $((leaves % 5)) != 0 ]; then
    echo 'the leaves are those of records of five'
    exit 2
fi
find_cab ${program:+"$program" ${cpu:+"$cpu"}}
registry=/usr/share/cargo/registry
cd "$work"

# ---- the documents

# each document as a text, as JSON and as rows of a table, questions and edits about it, and what requests the same of
# sqlite3 and jq
write_documents() {
    local document
    write_lines "$leaves" "$count"
    for document in records ordered hashed kept; do
        text_of $document "$leaves" > $document.text
        json_of $document "$leaves" > $document.json
        rows_of $document "$leaves" > $document.rows
        write_requests $document "$(lines_of $document)"
    done
}

# prints the name of the lines about a document
lines_of() {
    if [ "$1" = records ]; then echo records; else echo map; fi
}

# The records are a table with a column for each field, and a map is a table of keys and values: that of a kept map has
# its rows in the order of the document and an index of the keys, and the others have no rows beside the tree of keys.
table_of() {
    case $1 in
        records) echo 'create table records (place integer primary key, active text, id integer, mail text, name text,
            score integer);' ;;
        kept) echo 'create table leaves (key text primary key, value numeric);' ;;
        *) echo 'create table leaves (key text primary key, value numeric) without rowid;' ;;
    esac
}

# write_requests DOCUMENT LINES: writes what requests the same as LINES.get and LINES.set, and the import of the table
write_requests() {
    local document=$1 columns="s/^get #\([0-9]*\) '\(.*\)$/select \2 from records where place = \1;/
        s/^set int \([0-9]*\) #\([0-9]*\) '\(.*\)$/update records set \3 = \1 where place = \2;/"
    sed "$columns" "$2.get" | statements > "$document.get.sql"
    { echo 'begin;'; sed "$columns" "$2.set" | statements; echo 'commit;'; } > "$document.set.sql"
    paths "$2.get" > "$document.paths"
    sed "s/^set int \([0-9]*\) '\(.*\)$/[[\"\2\"],\1]/; s/^set int \([0-9]*\) #\([0-9]*\) '\(.*\)$/[[\2,\"\3\"],\1]/" \
        "$2.set" > "$document.edits"
    {
        echo 'pragma synchronous = off;'
        echo 'pragma journal_mode = off;'
        table_of "$document"
        echo '.mode tabs'
        echo ".import ../$document.rows $([ "$document" = records ] && echo records || echo leaves)"
    } > "$document.table"
}

# ---- figures

# figure WHAT DOCUMENT ACTION PEER FIGURE UNIT: prints a line for a figure, the fields apart by tabulators
figure() {
    local IFS=$'\t'
    echo "$*"
}

# print_row LINE..: prints the row of lines for figures, after a heading if the row before is of something else
print_row() {
    [ $# != 0 ] || return 0
    printf '%s\n' "$@" | awk -F '\t' -v told="$told" -f "$root/bench/peers_table.awk"
    told=${1%%$'\t'*}
}

# reads lines for figures, and prints a row for those of a document and an action; those of sizes come last. Other lines
# are printed as they are.
rows() {
    local line place last='' told='' row=() sizes=()
    while IFS= read -r line; do
        place=${line%$'\t'*$'\t'*$'\t'*}
        if [ "$place" != "$last" ]; then
            print_row "${row[@]}"
            row=()
            last=$place
        fi
        case $line in
            bytes$'\t'*) sizes+=("$line") ;;
            *$'\t'*) row+=("$line") ;;
            *) echo "$line" ;;
        esac
        case $line in
            *$'\t'* | '# '*) echo "$line" >> "$figures" ;;
        esac
    done
    print_row "${row[@]}"
    for place in records ordered hashed kept; do
        mapfile -t row < <(printf '%s\n' "${sizes[@]}" | grep "^bytes.$place" || true)
        print_row "${row[@]}"
    done
}

# prints what is known of the run
about() {
    echo "# date: $(date +%F)"
    echo "# machine: $(sed -n 's/^model name[[:space:]]*: //p' /proc/cpuinfo | head -n 1), $(nproc) processors"
    echo "# compiled for: ${processor:-the processor that rustc assumes}"
    echo "# leaves: $leaves"
    echo "# questions: $count"
    echo "# peers: $(versions | paste -s -d , | sed "s|,|, |g")"
}

# prints a line for each peer that is there, with its version
versions() {
    ! is_there sqlite3 || echo "sqlite3 $(sqlite3 --version | cut -d ' ' -f 1)"
    ! is_there jq || jq --version
    ! has_rkyv || basename "$registry"/rkyv-0.7*
    ! has_flatbuffers || flatc --version
    ! is_there rustc || rustc --version
}

# ---- what is there

is_there() {
    command -v "$1" > /dev/null
}

has_rkyv() {
    compgen -G "$registry/rkyv-0.7*" > /dev/null
}

has_flatbuffers() {
    is_there flatc && is_there g++ && [ -e /usr/include/flatbuffers/flatbuffers.h ]
}

# has_library NAME: returns whether the static library of a crate is there, which is proved and built first if no program
# was given
has_library() {
    local crate=$root/crates/$1
    [ -d "$crate" ] || return 1
    if [ -z "$program" ] && ! (cd "$crate" && rt lib) < /dev/null > log 2>&1; then
        cat log
        exit 1
    fi
    [ -e "$crate/out/lib$1.a" ]
}

# ---- programs

# by_PROGRAM ACTION: prints the microseconds that an action of a program on the document takes; the answers are in the
# file answers
by_cab() {
    if [ "$1" = build ]; then
        spent /dev/null "$cab" build "../$document.text" a.cab
    else
        cp "../$document.cab" a.cab
        spent "../$(lines_of $document).$1" "$cab" run a.cab
    fi
}

by_sqlite3() {
    rm -f a.db
    if [ "$1" = build ]; then
        spent "../$document.table" sqlite3 -batch a.db
    else
        cp "../$document.db" a.db
        spent "../$document.$1.sql" sqlite3 -batch a.db
    fi
}

by_jq() {
    case $1 in
        build) spent /dev/null jq -c . "../$document.json" ;;
        get) spent /dev/null jq -r --slurpfile paths "../$document.paths" 'getpath($paths[])' "${2:-../$document.json}" ;;
        set) spent /dev/null jq -c --slurpfile edits "../$document.edits" \
            'reduce $edits[] as [$path, $value] (.; setpath($path; $value))' "../$document.json" ;;
    esac
}

# timed ACTION WORD: prints the figures of an action of all programs on the document, by the word for it
timed() {
    local peer time
    local -A times=()
    for _ in 1 2 3 4 5; do
        for peer in "${programs[@]}"; do
            time=$(cd "$peer-files" && by_"$peer" "$1")
            times[$peer]=$(least "${times[$peer]:-0}" "$time")
        done
    done
    for peer in "${programs[@]}"; do
        figure program "$document" "$2" "$peer" "$(seconds "${times[$peer]}" | cut -d ' ' -f 1)" s
    done
}

# answered WHAT: what the programs have answered must be the same
answered() {
    local peer
    heads cab-files/answers > told
    for peer in "${programs[@]:1}"; do
        if ! cmp -s told "$peer-files/answers"; then
            echo "$document: cab and $peer find different values $1"
            exit 1
        fi
    done
}

# asks the programs, which have done the edits, once more
ask_again() {
    local peer
    if grep -qv '^ok$' cab-files/answers; then
        echo "$document: cab has not done all edits"
        exit 1
    fi
    (cd cab-files && "$cab" run a.cab < "../$(lines_of $document).get" > answers)
    for peer in "${programs[@]:1}"; do
        case $peer in
            sqlite3) (cd sqlite3-files && sqlite3 -batch a.db < "../$document.get.sql" > answers) ;;
            jq) (cd jq-files && mv answers edited.json && by_jq get edited.json > /dev/null) ;;
        esac
    done
}

compare_programs() {
    local peer
    mkdir "${programs[@]/%/-files}"
    for document in records ordered hashed kept; do
        timed build build
        mv cab-files/a.cab $document.cab
        figure bytes $document size cab "$(stat -c %s $document.cab)" bytes
        for peer in "${programs[@]:1}"; do
            case $peer in
                sqlite3) mv sqlite3-files/a.db $document.db
                    figure bytes $document size sqlite3 "$(stat -c %s $document.db)" bytes ;;
                jq) figure bytes $document size JSON "$(stat -c %s jq-files/answers)" bytes ;;
            esac
        done
        timed get question
        answered 'before the edits'
        timed set edit
        ask_again
        answered 'after the edits'
    done
}

# ---- in a process

# writes the manifest of the programs, which depend on rkyv if it is there
write_manifest() {
    mkdir peers
    cat > peers/Cargo.toml << END
[package]
name = "peers"
version = "0.0.0"
edition = "2024"

[[bin]]
name = "peers"
path = "$root/bench/peers.rs"

[[bin]]
name = "peers_typed"
path = "$root/bench/peers_typed.rs"

[profile.release]
codegen-units = 1

[lints.rust]
unexpected_cfgs = "allow"
END
    ! has_rkyv || cat >> peers/Cargo.toml << 'END'

[dependencies]
bytecheck = "0.6"
indexmap = { version = "1", features = ["std"] }
rkyv = { version = "0.7", features = ["indexmap", "validation"] }
END
}

# run COMMAND..: shows what a command prints only if it fails, which ends the run
run() {
    if ! "$@" > log 2>&1; then
        cat log
        exit 1
    fi
}

# compile NAME WORD..: compiles a program of the manifest, with words for rustc, as $CARGO_TARGET_DIR/release/NAME
compile() {
    export CARGO_TARGET_DIR=${CARGO_TARGET_DIR:-$work/target} RUSTFLAGS=${processor:+-C target-cpu=$processor}
    run cargo rustc --release --offline --manifest-path peers/Cargo.toml \
        --config 'source.crates-io.replace-with="debian"' --config "source.debian.directory=\"$registry\"" \
        --bin "$1" -- "${@:2}"
}

# sets words to those that link what the document's program calls, and says what is not there
find_peers() {
    local object=(-O3 -DNDEBUG ${processor:+-march="$processor"} -c)
    words=()
    if has_library cabinet_c; then
        run gcc "${object[@]}" -o cabinet.o "$root/crates/cabinet_c/cabinet.c"
        words+=(--cfg has_cabinet -C link-arg="$PWD/cabinet.o" -C link-arg="$root/crates/cabinet_c/out/libcabinet_c.a")
    else
        echo 'skipped in a process: crates/cabinet_c, which is not built'
    fi
    if has_rkyv; then
        words+=(--cfg has_rkyv)
    else
        echo 'skipped: rkyv, of the package librust-rkyv-dev'
    fi
    if has_flatbuffers; then
        run flatc --cpp --gen-mutable "$root/bench/peers.fbs"
        run g++ -std=c++17 "${object[@]}" -I . -o flatbuffers.o "$root/bench/peers_flatbuffers.cpp"
        words+=(--cfg has_flatbuffers -C link-arg="$PWD/flatbuffers.o" -l stdc++)
    else
        echo 'skipped: FlatBuffers, of the packages libflatbuffers-dev, flatbuffers-compiler and g++'
    fi
    if [ -e /usr/include/sqlite3.h ]; then
        words+=(--cfg has_sqlite)
    else
        echo 'skipped in a process: SQLite, of the package libsqlite3-dev'
    fi
}

compare_calls() {
    if ! is_there rustc || ! is_there cargo; then
        echo 'skipped: all in a process, which wants rustc and cargo'
        return
    fi
    write_manifest
    find_peers
    if [ ${#words[@]} != 0 ]; then
        compile peers "${words[@]}"
        "$CARGO_TARGET_DIR/release/peers" . "$count"
    fi
    if ! has_rkyv; then
        echo 'skipped: types that a program knows, since rkyv is not there'
    elif ! has_library archive_bench; then
        echo 'skipped: types that a program knows, since crates/archive_bench is not built'
    else
        compile peers_typed -L "native=$root/crates/archive_bench/out"
        "$CARGO_TARGET_DIR/release/peers_typed" "$leaves"
    fi
}

# ---- what is printed

# prints what each peer checks before it trusts bytes
checks() {
    cat << 'END'

What each checks before it trusts bytes:
  cab, cabinet: that the bytes hold a document: tags, numbers of entries, texts in UTF-8, what each offset leads to, and
    that no two things share bytes; at most 64 containers in one another; that keys of ordered maps ascend, and that each
    key of a hashed or kept map is found
  rkyv (check_archived_root): the same of the type that it is asked for, but two equal keys of a tree are accepted
  FlatBuffers (Verifier): that each table, vector and text lies within the bytes, aligned, and each text ends with a zero;
    neither that texts are UTF-8, nor that keys ascend, nor that values are apart
  sqlite3, SQLite: nothing before; of a page, as it is read, what reading it needs (integrity_check is another command)
  jq: all of the text, which it reads each time
END
}

programs=(cab)
for peer in sqlite3 jq; do
    if is_there $peer; then programs+=($peer); else echo "skipped: $peer, which is not installed"; fi
done
write_documents
{
    about
    compare_programs
    compare_calls
} | rows
checks
