#!/usr/bin/env bash
# Keeps many archives in one SQLite database. Each row of its table has a shard: the archive of a map, which has the keys
# from `first` on and below the `first` of the next shard. Needs cab and sqlite3 on the path.
# Usage: shards.sh DATABASE put FIRST TEXT            the archive of a text becomes the shard of the keys from FIRST on
#        shards.sh DATABASE ask KEY PATH              the answer to `get` at a path in the node of a key
#        shards.sh DATABASE edit KEY LEAF PATH [..]   puts a leaf there, or many, in one transaction: all of them or none
# A key is written as it is, without escapes; LEAF and PATH as in the lines of cab run. PATH may be empty.
set -euo pipefail
shopt -s inherit_errexit
database=${1:-}
folder=$(mktemp -d)
trap 'rm -rf "$folder"' EXIT

# fault STATUS LINE: ends with a line on the standard error
fault() {
    echo "shards.sh: $2" >&2
    exit "$1"
}

# runs the statements of the standard input, up to the first that fails
sql() {
    sqlite3 -batch -bail -noheader -list -cmd '.timeout 5000' "$database"
}

# prints a text as SQL has it
quoted() {
    local quote="'"
    echo "'${1//$quote/$quote$quote}'"
}

# prints the step of a path that leads to the node of a key
step() {
    local key=${1//\\/\\\\}
    key=${key//$'\n'/\\n}
    echo "'${key// /\\s}"
}

# answer KEY LINE: prints the answer to a line in the shard of a key. The file SHARD.old has the shard as it was read, and
# SHARD.cab as the lines have left it.
answer() {
    local row shard
    row=$(sql <<< "SELECT shard, writefile($(quoted "$folder/row"), archive) FROM shards
        WHERE first = (SELECT max(first) FROM shards WHERE first <= $(quoted "$1"));")
    shard=${row%%|*}
    if [ -z "$shard" ]; then
        echo missing
        return
    fi
    if [ ! -e "$folder/$shard.old" ]; then
        cp "$folder/row" "$folder/$shard.cab"
        mv "$folder/row" "$folder/$shard.old"
    fi
    cab run "$folder/$shard.cab" <<< "$2"
}

# prints the transaction that stores the shards, if each of them is still as it was read
transaction() {
    local old shard
    echo 'BEGIN IMMEDIATE;'
    echo 'CREATE TEMP TABLE updated (rows INTEGER CONSTRAINT "a shard was changed meanwhile" CHECK (rows = 1));'
    for old in "$folder"/*.old; do
        shard=$(basename "$old" .old)
        echo "UPDATE shards SET archive = readfile($(quoted "$folder/$shard.cab"))"
        echo "    WHERE shard = $shard AND archive = readfile($(quoted "$old"));"
        echo 'INSERT INTO updated VALUES (changes());'
    done
    echo 'COMMIT;'
}

# put FIRST TEXT
put() {
    cab build "$2" "$folder/new.cab"
    sql << END
CREATE TABLE IF NOT EXISTS shards (shard INTEGER PRIMARY KEY, first TEXT NOT NULL UNIQUE, archive BLOB NOT NULL);
INSERT INTO shards (first, archive) VALUES ($(quoted "$1"), readfile($(quoted "$folder/new.cab")))
    ON CONFLICT (first) DO UPDATE SET archive = excluded.archive;
END
}

# edit KEY LEAF PATH ..
edit() {
    local said all_ok=yes
    while [ $# -gt 0 ]; do
        said=$(answer "$1" "set $2 $(step "$1")${3:+ $3}")
        echo "$said"
        [ "$said" = ok ] || all_ok=
        shift 3
    done
    [ "$all_ok" ] || fault 1 'nothing is stored'
    transaction | sql || fault 1 'nothing is stored'
}

usage='usage: shards.sh DATABASE put FIRST TEXT | ask KEY PATH | edit KEY LEAF PATH [..]'
case ${2:-}:$# in
    put:4) put "$3" "$4" ;;
    ask:4) answer "$3" "get $(step "$3")${4:+ $4}" ;;
    edit:*)
        [ $# -gt 2 ] && [ $(($# % 3)) -eq 2 ] || fault 2 "$usage"
        edit "${@:3}"
        ;;
    *) fault 2 "$usage" ;;
esac
