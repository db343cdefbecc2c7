#!/usr/bin/env bash
# Keeps shards in a database by examples/many/shards.sh, with cab: the program whose path is given first, or else that of
# crates/cab. Each case compares the answers, the faults and the rows that are stored with what is written here. Without
# sqlite3 nothing is run.
# Usage: tests/many.sh [CAB CAB_SHOW]
needs=sqlite3
. "$(dirname "$0")/steps.sh"
. "$root/tests/bytes.sh"
PATH=$work:$PATH

# ---- the steps of a case

# shards WORD..: runs shards.sh in the database many.db
shards() {
    "$root/examples/many/shards.sh" many.db "$@" < input > output 2> errors
    ended=$?
}

# stored FIRST HEX ..: the rows of the database, each by its first key and its archive
stored() {
    local rows
    rows=$(sqlite3 many.db "SELECT first, lower(hex(archive)) FROM shards ORDER BY first;")
    [ "$rows" = "$(printf '%s|%s\n' "$@")" ] || differs "the rows are $(cut -c 1-60 <<< "$rows" | tr '\n' ' ')"
}

# starts a case with two shards: a and b, and from n on p and z
two_shards() {
    begin "$1"
    text "ordered 2\n'a\nint 1\n'b\nint 2\n"
    shards put '' text
    text "ordered 2\n'p\nint 3\n'z\nint 4\n"
    shards put n text
}

# many KEY NUMBER KEY NUMBER: the archive of a map of two numbers
many() {
    echo "$(leaf "$@")$(map -180 2)"
}
low=$(many a 1 b 2)
high=$(many p 3 z 4)

# answered KEY ANSWER: the answer in the node of a key
answered() {
    shards ask "$1" ''
    prints "$2\n"
    ends 0 ''
}

# unstored ANSWERS NAME WORD..: edits of which none is stored
unstored() {
    two_shards "not stored: $2"
    shards edit "${@:3}"
    prints "$1"
    ends 1 'shards.sh: nothing is stored\n'
    stored '' "$low" n "$high"
    finish
}

# ---- the cases

two_shards 'two shards are put'
prints 'built 200\n'
ends 0 ''
stored '' "$low" n "$high"
finish

two_shards 'a shard is put in the place of one'
text "ordered 2\n'p\nint 5\n'y\nint 6\n"
shards put n text
prints 'built 200\n'
ends 0 ''
stored '' "$low" n "$(many p 5 y 6)"
finish

two_shards 'a shard is put between two'
text "ordered 2\n'c\nint 5\n'd\nint 6\n"
shards put c text
stored '' "$low" c "$(many c 5 d 6)" n "$high"
answered b 'int 2'
answered c 'int 5'
answered p 'int 3'
finish

two_shards 'a text with a fault is not put'
text 'ordered 1\nint 5\n'
shards put n text
prints ''
ends 1 'cab: text line 2: KeyExpected\n'
stored '' "$low" n "$high"
finish

two_shards 'questions of keys'
answered a 'int 1'
answered b 'int 2'
answered m missing
answered n missing
answered p 'int 3'
answered z 'int 4'
answered '' missing
answered p/1 missing
finish

begin 'a key below the first of all shards'
text "ordered 1\n'p\nint 3\n"
shards put n text
answered m missing
answered p 'int 3'
finish

begin 'keys with characters that are escaped in lines or in SQL'
text "ordered 1\n'\"\nint 1\n"
shards put '' text
text "ordered 2\n'O'Brien\nint 2\n'a\\\\sb\\\\nc\\\\\\\\s\nint 3\n"
shards put "O'" text
# a space is below a letter, though its escape is above it
text "ordered 2\n'aZ\nint 4\n'\xc3\xa9\nlist 1\nsome\nint 5\n"
shards put aZ text
answered '"' 'int 1'
answered "O'Brien" 'int 2'
answered $'a b\nc\\s' 'int 3'
answered aZ 'int 4'
answered $'\xc3\xa9' 'list 1'
shards edit $'\xc3\xa9' 'int 6' '#0 ?' $'a b\nc\\s' 'int 7' ''
prints 'ok\nok\n'
ends 0 ''
shards ask $'\xc3\xa9' '#0 ?'
prints 'int 6\n'
answered $'a b\nc\\s' 'int 7'
finish

# ---- edits

two_shards 'an edit of one shard'
shards edit z 'int 5' ''
prints 'ok\n'
ends 0 ''
stored '' "$low" n "$(many p 3 z 5)"
answered z 'int 5'
finish

two_shards 'edits of two shards'
shards edit z 'int 5' '' a 'int 6' '' p 'int 7' '' z 'int 8' ''
prints 'ok\nok\nok\nok\n'
ends 0 ''
stored '' "$(many a 6 b 2)" n "$(many p 7 z 8)"
finish

unstored 'missing\n' 'a key that is not there' y 'int 5' ''
unstored 'missing\n' 'a path that leads nowhere' z 'int 5' '#0'
unstored 'refused\n' 'a leaf of another kind' z 'bool true' ''
unstored 'bad\n' 'what is no leaf' z 'int x' ''
unstored 'ok\nrefused\n' 'an edit beside a refused one of its shard' z 'int 5' '' p 'bool true' ''
unstored 'ok\nmissing\nok\n' 'edits of two shards, and one of no key' z 'int 5' '' m 'int 5' '' p 'int 5' ''

# changes_meanwhile SQL: makes a cab that runs these statements first, after a shard was read and before it is stored
changes_meanwhile() {
    printf '#!/usr/bin/env bash\nsqlite3 many.db "%s" && exec %q "$@"\n' "$1" "$cab" > cab
    chmod +x cab
}

for change in "UPDATE shards SET archive = x'00' WHERE first = 'n'" "DELETE FROM shards WHERE first = 'n'"; do
    two_shards "a shard is changed meanwhile: ${change%% *}"
    changes_meanwhile "$change"
    PATH=$PWD:$PATH shards edit z 'int 6' '' a 'int 5' ''
    prints 'ok\nok\n'
    [ "$ended" = 1 ] || differs "it ended with status $ended"
    grep -q 'a shard was changed meanwhile' errors || differs 'the change is not told'
    [ "$(tail -n 1 errors)" = 'shards.sh: nothing is stored' ] || differs 'another fault is told'
    case $change in
        UPDATE*) stored '' "$low" n 00 ;;
        DELETE*) stored '' "$low" ;;
    esac
    finish
done

two_shards 'an archive that is not opened'
sqlite3 many.db "UPDATE shards SET archive = x'00' WHERE first = 'n';"
shards ask z ''
prints ''
ends 1 'cab: open: Access\n'
answered a 'int 1'
shards edit a 'int 5' '' z 'int 6' ''
prints 'ok\n'
ends 1 'cab: open: Access\n'
stored '' "$low" n 00
finish

# ---- words

for words in '' put 'put n' 'put n text more' 'ask a' 'ask a #0 more' edit 'edit a' 'edit a 5' 'edit a 5 #0 b' get; do
    begin "other words: $words"
    shards $words
    prints ''
    ends 2 'shards.sh: usage: shards.sh DATABASE put FIRST TEXT | ask KEY PATH | edit KEY LEAF PATH [..]\n'
    lacks many.db
    finish
done

begin 'no table'
shards ask a ''
prints ''
[ "$ended" -ne 0 ] || differs 'it ended with status 0'
[ -s errors ] || differs 'there is no fault'
finish

begin 'the example'
shards put '' "$root/examples/many/a"
prints 'built 744\n'
shards put n "$root/examples/many/n"
prints 'built 728\n'
shards ask 'bread rolls' "'stock"
prints 'int 25\n'
shards edit apples 'int 39' "'stock" tea 'int 17' "'stock"
prints 'ok\nok\n'
ends 0 ''
shards ask tea "'stock"
prints 'int 17\n'
finish

echo "$passed passed, $failed failed"
[ "$failed" -eq 0 ]
