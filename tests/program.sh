#!/usr/bin/env bash
# Usage: tests/program.sh [CAB CAB_SHOW CAB_EDIT]. Runs cab, cab_show and cab_edit on files in a temporary folder: the programs
# whose paths are given, or else those of crates/cab, crates/cab_show and crates/cab_edit. Each case compares what they print,
# their faults, their status and the files that they leave with what is written here.
set -u
. "$(dirname "$0")/steps.sh"
. "$root/tests/bytes.sh"
. "$root/tests/made.sh"

cab_edit=$work/cab_edit
edit_usage='cab_edit: usage: cab_edit ARCHIVE | cab_edit --new KIND ARCHIVE\n'
if [ $# -eq 0 ]; then
    proved cab_edit --new list "$work/new.cab"
fi
cp "${3:-$root/crates/cab_edit/out/cab_edit}" "$cab_edit" && chmod +x "$cab_edit" || exit 1

# runs cab_edit with the given words
edit() {
    "$cab_edit" "$@" < input > output 2> errors
    ended=$?
}

# ---- the cases that differ in their texts alone

# builds TEXT HEX: the archive of a text, which is opened
builds() {
    begin "the archive of: $1"
    text "$1\n"
    run build text a.cab
    prints "built $((${#2} / 2))\n"
    ends 0 ''
    holds a.cab "$2"
    run run a.cab
    prints ''
    ends 0 ''
    finish
}

# refuses NAME TEXT LINE CAUSE: a text that cab build refuses
refuses() {
    begin "a text refused: $1"
    text "$2"
    run build text new.cab
    prints ''
    ends 1 "cab: text line $3: $4\n"
    leaves text
    archive "${five}bbbb"
    run build text a.cab
    ends 1 "cab: text line $3: $4\n"
    holds a.cab "${five}bbbb"
    leaves a.cab text
    finish
}

# answers_in HEX NAME LINES ANSWERS HEX: the answers in an archive, which then holds other bytes
answers_in() {
    begin "$2"
    archive "$1"
    lines "$3"
    run run a.cab
    prints "$4"
    ends 0 ''
    holds a.cab "$5"
    finish
}

# answers NAME LINES ANSWERS HEX: the answers in the archive of int 5
answers() {
    answers_in "$five" "$@"
}

# is_shown: whether a.cab is shown as its text
is_shown() {
    show a.cab
    cmp -s output text || differs 'another text is shown'
    ends 0 ''
}

# unopened HEX CAUSE NAME: bytes that are refused
unopened() {
    begin "not opened: $3"
    archive "$1"
    lines "keys\nset int 6 'a\n"
    run run a.cab
    prints ''
    ends 1 "cab: open: $2\n"
    holds a.cab "$1"
    leaves a.cab
    finish
}

# misused WORD..: words that are not a command of cab
misused() {
    begin "other words: $*"
    run "$@"
    prints ''
    ends 2 "$usage"
    lacks build
    lacks run
    lacks a.cab
    finish
}

# is_built TEXT: a.cab has the bytes that cab build makes of a text, and nothing else is left
is_built() {
    text "$1\n"
    run build text built.cab
    ends 0 ''
    cmp -s a.cab built.cab || differs 'the archive has other bytes'
    leaves a.cab built.cab text
}

# edits NAME TEXT LINES ANSWERS TEXT: the answers to lines in the archive of a text, and the text of the document after them
edits() {
    begin "edited: $1"
    text "$2\n"
    run build text a.cab
    lines "$3"
    edit a.cab
    prints "$4"
    ends 0 ''
    is_built "$5"
    finish
}

# makes NAME KIND LINES ANSWERS TEXT: the same of a new archive
makes() {
    begin "made: $1"
    lines "$3"
    edit --new "$2" a.cab
    prints "$4"
    ends 0 ''
    is_built "$5"
    finish
}

# keeps NAME TEXT LINES ANSWERS: lines of which none edits, after which the file is untouched
keeps() {
    begin "not edited: $1"
    text "$2\n"
    run build text a.cab
    touch -d '2001-02-03 04:05:06' a.cab
    before=$(stat -c '%i %y' a.cab)
    lines "$3"
    edit a.cab
    prints "$4"
    ends 0 ''
    file_is a.cab '%i %y' "$before"
    is_built "$2"
    finish
}

# misused_edit WORD..: words that are not a command of cab_edit
misused_edit() {
    begin "other words of cab_edit: $*"
    archive "$five"
    lines 'put int 6\n'
    edit "$@"
    prints ''
    ends 2 "$edit_usage"
    holds a.cab "$five"
    leaves a.cab
    finish
}

# not_new PATH: no new archive is made at a path where something is, and no line is carried out
not_new() {
    lines 'put int 6\n'
    edit --new list "$1"
    prints ''
    ends 1 "cab: cannot write $1\n"
}

# prints a line of $1 bytes
long_line() {
    head -c "$1" /dev/zero | tr '\0' x
    echo
}

# ---- build

builds 'int 5' "$five"
builds 'int -1' 0100000000000000ffffffffffffffff0000000000000000
builds 'int -2' 0100000000000000feffffffffffffff0000000000000000
builds 'int 9223372036854775807' 0100000000000000ffffffffffffff7f0000000000000000
builds 'int -9223372036854775808' 010000000000000000000000000000800000000000000000
builds 'bool true' 000100000000000000000000000000000000000000000000
builds 'bool false' 000000000000000000000000000000000000000000000000
builds "text 'world" 02000000776f726c64ffffff000000000000000000000000
builds "text '" 02000000ffffffffffffffff000000000000000000000000
builds "text 'a\\\\sb\\\\nc" 020000006120620a63ffffff000000000000000000000000

builds 'list 0' 05000000fcffffff00000000000000000000000000000000
builds 'list 2\nint 7\nint 19' "$seven$nineteen$two"
builds 'list 2\nint 7\nint 20' "$seven$twenty$two"
builds "list 2\ntext '\nbool true" 02000000ffffffffffffffff000000000000000000000000000100000000000000000000000000000000000000000000"$two"

builds none "$none"
builds 'some\nint 5' "$five$some"
builds "text 'hello\\sworld!" 68656c6c6f20776f726c642100000000020000008c000000ecffffff000000000000000000000000
builds 'list 2\nlist 2\nint 7\nint 19\nint 5' "$seven$nineteen$two${five}05000000ccffffff02000000000000000000000000000000"
builds 'list 1\nlist 0' 05000000fcffffff0000000000000000000000000000000005000000e4ffffff01000000000000000000000000000000
builds 'list 2\nsome\nint 5\nsome\nint 6' \
    "$five${six}0400000001000000c8ffffff0000000000000000000000000400000001000000c8ffffff000000000000000000000000$two"

builds "shared 'a" 610000000000000003000000f4ffffff01000000000000000000000000000000
builds "list 2\nshared 'hello\\sworld!\nshared 'hello\\sworld!" "$twice"
builds "list 2\nshared '\nshared '" "$empties"
builds "list 2\nshared 'a\nshared 'a" \
    "610000000000000003000000f4ffffff01000000$(zeros 12)03000000dcffffff01000000$(zeros 12)$two"
# an empty shared text is one zero byte
builds "list 3\nshared '\nshared 'b\nshared '" \
    "006200000000000003000000f4ffffff$(zeros 16)03000000ddffffff01000000$(zeros 12)03000000c4ffffff$(zeros 16)05000000b4ffffff03000000$(zeros 12)"
# once in the whole archive, regardless of its place
builds "list 2\nlist 1\nshared 'hello\\sworld!\nshared 'hello\\sworld!" \
    68656c6c6f20776f726c64210000000003000000ecffffff0c00000000000000000000000000000005000000e4ffffff0100000000000000000000000000000003000000bcffffff0c00000000000000000000000000000005000000ccffffff02000000000000000000000000000000
# a text that is not shared is written separately
builds "list 2\nshared 'a\ntext 'a" \
    610000000000000003000000f4ffffff010000000000000000000000000000000200000061ffffffffffffff00000000000000000000000005000000ccffffff02000000000000000000000000000000

builds 'wholes 1\nint 5\nwhole 0' "$five$whole"
# once, however many places it has
builds 'wholes 1\nint 5\nlist 2\nwhole 0\nwhole 0' "$wholes"
builds 'wholes 1\nint 5\nlist 3\nwhole 0\nint 5\nwhole 0' \
    "$five$whole${five}09000000b4ffffff$(zeros 16)05000000b4ffffff03000000$(zeros 12)"
builds 'wholes 2\nint 1\nlist 2\nwhole 0\nwhole 0\nlist 3\nwhole 1\nwhole 0\nwhole 1' \
    "${one_twice}${whole}0900000084ffffff$(zeros 16)09000000b4ffffff$(zeros 16)05000000b4ffffff03000000$(zeros 12)"
builds 'wholes 2\nint 1\nlist 2\nwhole 0\nwhole 0\nsome\nwhole 1' "$one_twice$whole$some"
builds "wholes 2\nint 1\nlist 2\nwhole 0\nwhole 0\nordered 1\n'a\nsome\nwhole 1" \
    "$one_twice$whole$(with "$(leaf a 0)" 48 "0400000001000000b0ffffff$(zeros 12)")$(map -180 1)"
# by ascending place, of which the second key has the lower one
builds "wholes 2\nint 1\nint 2\nhashed 2\n'a\nwhole 0\n'b\nwhole 1" \
    "$(number 2)$(number 1)$(table a "09000000dcffffff$(zeros 16)" b "09000000a4ffffff$(zeros 16)")00$(hashed -36 2 3)"
# a shared text and a whole of it
builds "wholes 1\nshared 'a\nlist 3\nwhole 0\nshared 'a\nwhole 0" \
    "610000000000000003000000f4ffffff01000000$(zeros 12)${whole}03000000c4ffffff01000000$(zeros 12)09000000b4ffffff$(zeros 16)05000000b4ffffff03000000$(zeros 12)"

refuses 'int 05' 'int 05\n' 1 BadNumber
refuses 'int -0' 'int -0\n' 1 BadNumber
refuses 'int 9223372036854775808' 'int 9223372036854775808\n' 1 BadNumber
refuses 'no newline' 'int 5' 1 NoNewline
refuses 'a second line' 'int 5\nint 5\n' 2 LineAfterEnd
refuses "text 'a b" "text 'a b\n" 1 BadEscape
refuses 'bytes that are not UTF-8' '\xff\n' 1 NotUtf8
refuses 'the empty text' '' 1 EndTooEarly
refuses 'another head' 'float 5\n' 1 UnknownHead
refuses 'a list with too few elements' 'list 2\nint 7\n' 3 EndTooEarly
refuses 'a list with too many elements' 'list 1\nint 7\nint 8\n' 3 LineAfterEnd
refuses 'a fault in an element' 'list 2\nint 7\nint 08\n' 3 BadNumber
refuses 'a key in a list' "list 1\n'a\n" 2 UnknownHead
refuses 'a count with a leading zero' 'list 01\nint 7\n' 1 BadNumber
refuses 'a count past 64 bits' 'list 18446744073709551616\n' 1 BadNumber
refuses 'a head without a count' 'list\n' 1 UnknownHead
refuses 'a list in a list, with no count' 'list 1\nlist x\n' 2 BadNumber
refuses 'keys of a hashed map that descend' "hashed 2\n'b\nint 1\n'a\nint 2\n" 4 KeyOrder
refuses 'a key that a kept map has' "kept 2\n'b\nint 1\n'b\nint 2\n" 4 KeyRepeated
refuses 'keys of an ordered map that descend' "ordered 2\n'b\nint 1\n'a\nint 2\n" 4 KeyOrder
refuses 'a key that an ordered map has' "ordered 2\n'b\nint 1\n'b\nint 2\n" 4 KeyOrder
refuses 'keys that ascend only without regard to case' "ordered 2\n'a\nint 1\n'B\nint 2\n" 4 KeyOrder
twelve=$(printf "'%s\\\\nint 1\\\\n" {a..l})
refuses 'a key out of order after twelve' "ordered 13\n$twelve'c\nint 1\n" 26 KeyOrder
refuses 'a key of a hashed map out of order after twelve' "hashed 13\n$twelve'c\nint 1\n" 26 KeyOrder
refuses 'a key that a kept map has, after twelve' "kept 13\n$twelve'c\nint 1\n" 26 KeyRepeated
refuses 'a key that a kept map has, after keys in no order' "kept 3\n'b\nint 1\n'a\nint 2\n'b\nint 3\n" 6 KeyRepeated
refuses 'a map with no key' 'ordered 1\nint 1\n' 2 KeyExpected
refuses 'a key with a space' "ordered 1\n'a b\nint 1\n" 2 BadEscape
refuses 'a key with nothing under it' "ordered 1\n'a\n" 3 EndTooEarly
refuses 'a map with too few keys' "ordered 2\n'a\nint 1\n" 4 EndTooEarly
refuses 'a map with too many keys' "ordered 1\n'a\nint 1\n'b\nint 2\n" 4 LineAfterEnd
refuses 'a map of -1 keys' 'ordered -1\n' 1 BadNumber
refuses 'an option with a count' 'some 1\n' 1 UnknownHead
refuses 'an option of nothing' 'some\n' 2 EndTooEarly
refuses 'a container in 64 others' "$(printf 'some\\n%.0s' {1..65})int 1\n" 65 TooDeep
refuses 'a map in 64 options' "$(printf 'some\\n%.0s' {1..64})ordered 0\n" 65 TooDeep
refuses 'an option in 64 maps' "$(printf "ordered 1\\\\n'a\\\\n%.0s" {1..64})none\n" 129 TooDeep
refuses 'a list in 64 options and maps' "$(printf "some\\\\nordered 1\\\\n'a\\\\n%.0s" {1..32})list 0\n" 97 TooDeep

refuses 'a whole where there are none' 'whole 0\n' 1 UnknownWhole
refuses 'a whole in itself' 'wholes 1\nwhole 0\nwhole 0\n' 2 UnknownWhole
refuses 'two equal wholes' 'wholes 2\nint 5\nint 5\nlist 2\nwhole 0\nwhole 1\n' 3 RepeatedWhole
refuses 'a whole that is not used' 'wholes 1\nint 5\nint 6\n' 3 WholeOrder
refuses 'wholes that are numbered otherwise' 'wholes 2\nint 1\nint 2\nlist 2\nwhole 1\nwhole 0\n' 6 WholeOrder
refuses 'wholes on a later line' 'list 1\nwholes 1\n' 2 UnknownHead
refuses 'no wholes' 'wholes 0\nint 5\n' 1 BadNumber

maps="ordered 2\\n'a\\nwhole 0\\n'b\\nint 6\\nhashed 2\\n'a\\nwhole 0\\n'b\\nint 7\\nkept 2\\n'b\\nint 8\\n'a\\nwhole 0"
builds "wholes 1\\nint 5\\nlist 3\\n$maps" "$in_maps"
answers_in "$in_maps" 'edits in maps that share a whole' \
    "get #0 'a ?\nset int 9 #0 'b\nset int 10 #1 'b\nset int 11 #2 'b\nset int 6 #0 'a ?\nset int 6 #1 'a ?\nset int 6 #2 'a ?\nget #2 'a ?\n" \
    'int 5\nok\nok\nok\nrefused\nrefused\nrefused\nint 5\n' "$(with "$in_maps" 104 09 248 0a 392 0b)"
# what the edits leave is what building writes of the document that they leave
edited=${maps/int 6/int 9}
edited=${edited/int 7/int 10}
builds "wholes 1\\nint 5\\nlist 3\\n${edited/int 8/int 11}" "$(with "$in_maps" 104 09 248 0a 392 0b)"

begin '64 wholes, one in the other'
text "wholes 64\nint 1\n$(printf 'whole %d\\n' {0..63})"
run build text a.cab
prints 'built 1560\n'
ends 0 ''
holds a.cab "$(number 1)$(printf "$whole%.0s" {1..64})"
lines "get$(printf ' ?%.0s' {1..64})\nset int 6$(printf ' ?%.0s' {1..64})\nget$(printf ' ?%.0s' {1..63})\nget$(printf ' ?%.0s' {1..65})\n"
run run a.cab
prints 'int 1\nrefused\nwhole\nmissing\n'
ends 0 ''
is_shown
finish

# each whole is a list of the one before it twice, so the document has 2^30 leaves if each use is counted
begin 'thirty doubled wholes'
{
    printf 'wholes 30\nint 1\n'
    for number in {0..29}; do
        printf 'list 2\nwhole %d\nwhole %d\n' "$number" "$number"
    done
} > text
run build text a.cab
prints 'built 2184\n'
ends 0 ''
holds a.cab "$(number 1)$(printf "$whole$again$two%.0s" {1..30})"
lines "get$(printf ' #0 ?%.0s' {1..30})\nget$(printf ' #1 ?%.0s' {1..30})\nset int 2$(printf ' #0 ?%.0s' {1..30})\nget$(printf ' #1 ?%.0s' {1..29})\n"
run run a.cab
prints 'int 1\nint 1\nrefused\nlist 2\n'
ends 0 ''
is_shown
finish

begin '64 options, one in the other'
text "$(printf 'some\\n%.0s' {1..64})int 5\n"
run build text a.cab
prints 'built 1560\n'
ends 0 ''
holds a.cab "$five$(printf "$some%.0s" {1..64})"
lines "get$(printf ' ?%.0s' {1..64})\nset int 6$(printf ' ?%.0s' {1..64})\nget$(printf ' ?%.0s' {1..63})\nget$(printf ' ?%.0s' {1..65})\n"
run run a.cab
prints 'int 5\nok\nsome\nmissing\n'
ends 0 ''
holds a.cab "$six$(printf "$some%.0s" {1..64})"
finish

begin 'a text that memory is refused for'
yes none | head -n 4000000 | sed '1i list 4000000' > text
(ulimit -v 150000 && "$cab" build text a.cab < input > output 2> errors)
ended=$?
prints ''
grep -qx 'cab: text line [0-9]*: OutOfMemory' errors || differs "its faults were $(cat errors)"
[ "$ended" = 1 ] || differs "it ended with status $ended"
lacks a.cab
finish

for head in 'list 4000000000' 'ordered 18446744073709551615'; do
    begin "no memory is taken for a count: $head"
    text "$head\n"
    (ulimit -v 1000000 && "$cab" build text a.cab < input > output 2> errors)
    ended=$?
    prints ''
    ends 1 'cab: text line 2: EndTooEarly\n'
    lacks a.cab
    finish
done

begin 'a longer old archive is cut'
text 'int 5\n'
archive "$six$six"
run build text a.cab
prints 'built 24\n'
ends 0 ''
holds a.cab "$five"
finish

begin 'a text that is not there'
run build no-text a.cab
prints ''
ends 1 'cab: cannot read no-text\n'
lacks a.cab
archive "$five"
run build no-text a.cab
ends 1 'cab: cannot read no-text\n'
holds a.cab "$five"
leaves a.cab
finish

begin 'a text that is not there, and whose name has a space'
run build 'a b.txt' a.cab
prints ''
ends 1 'cab: cannot read a b.txt\n'
lacks a.cab
finish

begin 'a text that is a folder'
mkdir folder
run build folder a.cab
prints ''
ends 1 'cab: cannot read folder\n'
lacks a.cab
archive "$five"
run build folder a.cab
ends 1 'cab: cannot read folder\n'
holds a.cab "$five"
leaves a.cab folder
finish

begin 'a path of no bytes'
run build '' a.cab
prints ''
ends 1 'cab: cannot read \n'
lacks a.cab
finish

begin 'an archive in a folder that is not there'
text 'int 5\n'
run build text no-folder/a.cab
prints ''
ends 1 'cab: cannot write no-folder/a.cab\n'
finish

for output in /dev/full closed; do
    begin "the number of bytes is not printed: $output"
    text 'int 5\n'
    if [ $output = closed ]; then
        "$cab" build text a.cab < input >&- 2> errors
    else
        "$cab" build text a.cab < input > $output 2> errors
    fi
    ended=$?
    ends 1 'cab: cannot write -\n'
    holds a.cab "$five"
    finish
done

# ---- words

misused
misused build
misused build text
misused build text a.cab more
misused run
misused run a.cab more
misused saves a.cab
misused BUILD text a.cab
misused '' a.cab
misused --help
misused run $'\xff.cab'
misused $'\xff' a.cab
misused build text $'a\xff.cab'

# ---- run

answers 'a question, an edit, a question' 'get\nset int 6\nget\n' 'int 5\nok\nint 6\n' "$six"
answers 'two spaces' "get  'a\n" 'bad\n' "$five"
answers 'an empty line' '\n' 'bad\n' "$five"
answers 'a line that is not UTF-8' 'get\xff\n' 'bad\n' "$five"
answers 'a line for another kind' "set shared 'x\n" 'bad\n' "$five"
answers 'keys and a range where there are none' "keys\nrange 'a 'b\nkeys #0\nrange 'a 'b ?\n" 'wrong\nwrong\nmissing\nmissing\n' "$five"
answers 'steps of other kinds' "get 'x\nget ?\nget #0\nset int 6 'x\n" 'missing\nmissing\nmissing\nmissing\n' "$five"
answers 'a leaf of another kind' "set bool true\nset text 'abcdefghi\nget\n" 'refused\nrefused\nint 5\n' "$five"
answers 'a line goes on after a refused one' 'get x\nset int 6\n' 'bad\nok\n' "$six"
answers 'the last line without a newline' 'set int 6\nget' 'ok\nint 6\n' "$six"
answers 'a byte 0 in a line' 'get\0\nget\n' 'bad\nint 5\n' "$five"

answers 'a place in a leaf' 'get #0\nset int 6 #0\n' 'missing\nmissing\n' "$five"
answers 'places that are spelled otherwise' 'get #\nget #00\nget 0\nget  #0\nget #0 \nget #-1\n' 'bad\nbad\nbad\nbad\nbad\nbad\n' "$five"

answers_in "$seven$nineteen$two" 'questions and edits in a list' \
    'get\nget #1\nset int 20 #1\nget #1\nget #2\nset bool true #0\n' \
    'list 2\nint 19\nok\nint 20\nmissing\nrefused\n' "$seven$twenty$two"
answers_in "$seven$nineteen$two" 'edits of a list and past its end' \
    'set int 5\nset int 5 #2\nset int 5 #18446744073709551615\nset int 5 #0 #0\nget #0 #0\nget #0\n' \
    'refused\nmissing\nmissing\nmissing\nmissing\nint 7\n' "$seven$nineteen$two"
answers_in 05000000fcffffff00000000000000000000000000000000 'an empty list' \
    'get\nget #0\nset int 5 #0\n' 'list 0\nmissing\nmissing\n' 05000000fcffffff00000000000000000000000000000000
answers_in "$nineteen$seven${five}05000000b4ffffff02000000000000000000000000000000" 'elements with other bytes behind them' \
    'get #1\nset int 19 #1\nget #1\n' 'int 7\nok\nint 19\n' "$nineteen$nineteen${five}05000000b4ffffff02000000000000000000000000000000"

answers_in "$five$some" 'a number in an option' \
    "get\nget ?\nget 'x\nget #0\nset int 6 ?\nget ?\nset int 7\n" \
    'some\nint 5\nmissing\nmissing\nok\nint 6\nrefused\n' "$six$some"
answers_in "$none" 'an option of nothing' 'get\nget ?\nset int 6 ?\n' 'none\nmissing\nmissing\n' "$none"
answers_in "$seven$nineteen$two${five}05000000ccffffff02000000000000000000000000000000" 'a list in a list' \
    'get #0\nget #0 #1\nget #1\nset int 20 #0 #1\nget #0 #1\nget #1 #0\nget #0 #2\n' \
    'list 2\nint 19\nint 5\nok\nint 20\nmissing\nmissing\n' "$seven$twenty$two${five}05000000ccffffff02000000000000000000000000000000"
answers_in 68656c6c6f20776f726c642100000000020000008c000000ecffffff000000000000000000000000 'a text out of line' \
    "get\nset text 'HELLO\\sWORLD!\nget\nset text 'hello\n" \
    "text 'hello\\sworld!\nok\ntext 'HELLO\\sWORLD!\nrefused\n" \
    48454c4c4f20574f524c442100000000020000008c000000ecffffff000000000000000000000000

answers_in "$twice" 'shared texts' \
    "get #0\nget #1\nset text 'HELLO\\sWORLD! #0\nget #0\nget #0 #0\nkeys #0\nset int 5 #1\n" \
    "shared 'hello\\sworld!\nshared 'hello\\sworld!\nrefused\nshared 'hello\\sworld!\nmissing\nwrong\nrefused\n" "$twice"
answers_in "$empties" 'empty shared texts' "get #0\nget #1\nset text ' #1\n" "shared '\nshared '\nrefused\n" "$empties"
answers_in 03000000fcffffff00000000000000000000000000000000 'an empty shared text where the root begins' "get\n" "shared '\n" \
    03000000fcffffff00000000000000000000000000000000

answers_in "$wholes" 'a whole in two elements' \
    "get\nget #0\nget #1 ?\nset int 6 #0 ?\nset int 6 #0\nget #0 'a\nget #0 ? ?\nget #2\nkeys #0\nkeys #0 ?\n" \
    'list 2\nwhole\nint 5\nrefused\nrefused\nmissing\nmissing\nmissing\nwrong\nwrong\n' "$wholes"
answers_in "$five$whole" 'a whole at the root' 'get\nget ?\nget #0\nset int 6\nset int 6 ?\nset bool true ?\nset int 6 ? #0\n' \
    'whole\nint 5\nmissing\nrefused\nrefused\nrefused\nmissing\n' "$five$whole"
# two nodes, which no writer of `cab` writes apart
answers_in "$five$five$again$again$two" 'equal wholes apart' 'get #0\nget #0 ?\nget #1 ?\nset int 6 #1 ?\n' 'whole\nint 5\nint 5\nrefused\n' \
    "$five$five$again$again$two"

begin 'no input: the file is untouched'
archive "$five"
touch -d '2001-02-03 04:05:06' a.cab
before=$(stat -c '%i %y' a.cab)
run run a.cab
prints ''
ends 0 ''
holds a.cab "$five"
[ "$(stat -c '%i %y' a.cab)" = "$before" ] || differs 'it was written'
finish

begin 'questions alone: the file is untouched'
archive "$five"
lines 'get\nset bool true\nget\n'
touch -d '2001-02-03 04:05:06' a.cab
before=$(stat -c '%i %y' a.cab)
run run a.cab
prints 'int 5\nrefused\nint 5\n'
ends 0 ''
[ "$(stat -c '%i %y' a.cab)" = "$before" ] || differs 'it was written'
leaves a.cab
finish

begin 'an edit to the value that is there writes the file'
archive "$five"
lines 'set int 5\n'
touch -d '2001-02-03 04:05:06' a.cab
before=$(stat -c '%i %y' a.cab)
run run a.cab
prints 'ok\n'
ends 0 ''
holds a.cab "$five"
[ "$(stat -c '%i %y' a.cab)" != "$before" ] || differs 'it was not written'
finish

begin 'edits of a text'
archive 02000000776f726c64ffffff000000000000000000000000
lines "get\nset text 'WORLD\nset text 'worlds\nset text 'wor\nget\n"
run run a.cab
prints "text 'world\nok\nrefused\nrefused\ntext 'WORLD\n"
ends 0 ''
holds a.cab 02000000574f524c44ffffff000000000000000000000000
finish

begin 'an edit of a truth value'
archive 000100000000000000000000000000000000000000000000
lines 'get\nset bool false\nget\n'
run run a.cab
prints 'bool true\nok\nbool false\n'
ends 0 ''
holds a.cab 000000000000000000000000000000000000000000000000
finish

begin 'bytes behind the archive stay'
archive "${five}bbbbbbbbbbbbbb"
lines 'get\n'
run run a.cab
prints 'int 5\n'
ends 0 ''
holds a.cab "${five}bbbbbbbbbbbbbb"
lines 'set int 6\nget\n'
run run a.cab
prints 'ok\nint 6\n'
ends 0 ''
holds a.cab "${six}bbbbbbbbbbbbbb"
finish

begin 'bytes that no field has stay'
archive 01aaaaaaaaaaaaaa0500000000000000aaaaaaaaaaaaaaaa
lines 'get\nset int 6\nget\n'
run run a.cab
prints 'int 5\nok\nint 6\n'
ends 0 ''
holds a.cab 01aaaaaaaaaaaaaa0600000000000000aaaaaaaaaaaaaaaa
finish

# nests MIB KIND FIRST NODE LAST CAUSE N: N containers, one in the other, opened with a stack of so many MiB. The bytes of
# the innermost one come first, those of each further one's node follow, and last those of the root where they are others.
nests() {
    begin "$7 $2 are refused: $6"
    archive "$3$(printf "$4%.0s" $(seq 2 "$7"))$5"
    cp a.cab before.cab
    lines 'set int 6\n'
    (ulimit -s $(($1 * 1024)) && "$cab" run a.cab < input > output 2> errors)
    ended=$?
    prints ''
    ends 1 "cab: open: $6\n"
    cmp -s a.cab before.cab || differs 'a.cab was written'
    finish
}

for outcome in 'TooDeep 65' 'TooDeep 2198' 'Access 2199'; do
    nests 1 options "$five$some" "$some" '' $outcome
    nests 1 lists "$five$one" "$one" '' $outcome
    nests 1 wholes "$five$whole" "$whole" '' $outcome
done

# a whole of 61 options, one in the other, in a list and then behind so many options of the list: at its second place 63
# containers and those options lie in one another
inside=$(number 1)$(printf "$some%.0s" {1..61})$whole
last=0400000001000000c8ffffff$(zeros 12)
begin 'a whole in 64 containers at its second place'
archive "$inside$again$last$two"
lines "get #1 ?$(printf ' ?%.0s' {1..62})\n"
run run a.cab
prints 'int 1\n'
ends 0 ''
finish
unopened "$inside${some}09000000b4ffffff$(zeros 16)$last$two" TooDeep 'a whole in 65 containers at its second place'
unopened "$inside$some${some}090000009cffffff$(zeros 16)$last$two" TooDeep 'a whole in 66 containers at its second place'

begin 'behind 65 options a tag that is none is told first'
archive "${five/01/0a}$(printf "$some%.0s" {1..65})"
run run a.cab
prints ''
ends 1 'cab: open: Access\n'
finish

begin 'an option of nothing in 63 lists, and in 64'
archive "$none$(printf "$one%.0s" {1..63})"
lines "get$(printf ' #0%.0s' {1..63})\n"
run run a.cab
prints 'none\n'
ends 0 ''
archive "$none$(printf "$one%.0s" {1..64})"
run run a.cab
prints ''
ends 1 'cab: open: TooDeep\n'
finish

# no node has tag 10; a whole begins in its own node, and one leads to the node in which it lies; of the first shared texts one
# reaches into the root, two lead to one position with other lengths, also where one is empty, and one is not UTF-8; of the last,
# both options lead to one node
for bytes in '' 01 "${five:2}" ff0000000000000005000000000000000000000000000000 000200000000000000000000000000000000000000000000 02000000fe6f726c64ffffff000000000000000000000000 \
    020000008100000064ffffff000000000000000000000000 \
    090000000100000000000000000000000100000000000000 \
    "${five}0a000000e4ffffff00000000000000000000000000000000" \
    "09000000fcffffff$(zeros 16)$whole" \
    03000000fcffffff01000000000000000000000000000000 "${twice:0:96}0b${twice:98}" "${empties:0:80}01${empties:82}" "ff${twice:2}" \
    "$seven${nineteen}05000000d4ffffff02000000000000000000000000000000" \
    "$seven${nineteen}05000000ceffffff01000000000000000000000000000000" \
    "$seven${nineteen}05000000c8ffffff02000000000000000000000000000000" \
    "$seven${nineteen}05000000ccffffff03000000000000000000000000000000" \
    "$seven${two}05000000ccffffff02000000000000000000000000000000" \
    "$five${six}0400000001000000c8ffffff0000000000000000000000000400000001000000b0ffffff000000000000000000000000$two"; do
    begin "no archive: ${bytes:-no bytes}"
    archive "$bytes"
    lines 'get\nset int 6\n'
    run run a.cab
    prints ''
    ends 1 'cab: open: Access\n'
    holds a.cab "$bytes"
    finish
done

begin 'an archive that is not there'
lines 'get\n'
run run a.cab
prints ''
ends 1 'cab: cannot read a.cab\n'
lacks a.cab
finish

begin 'the longest line'
archive "$five"
{ long_line 1048576; echo get; } > input
run run a.cab
prints 'bad\nint 5\n'
ends 0 ''
finish

begin 'a line that is too long'
archive "$five"
{ printf 'get\nset int 6\n'; long_line 1048577; echo get; } > input
run run a.cab
prints 'int 5\nok\n'
ends 1 'cab: run: LineTooLong after 2 lines\n'
holds a.cab "$six"
finish

begin 'lines without end'
archive "$five"
long_line 1048575 > line
while cat line; do :; done 2> /dev/null | "$cab" run a.cab > output 2> errors
ended=${PIPESTATUS[1]}
yes bad | head -n 4095 | cmp -s - output || differs 'the answers are others'
ends 1 'cab: run: InputTooLong after 4095 lines\n'
holds a.cab "$five"
finish

begin 'the longest line, and one that is too long, in pieces of 999 bytes'
archive "$five"
{ long_line 1048576; echo get; long_line 1048577; echo get; } | dd ibs=65536 obs=999 iflag=fullblock status=none 2> /dev/null | "$cab" run a.cab > output 2> errors
ended=${PIPESTATUS[2]}
prints 'bad\nint 5\n'
ends 1 'cab: run: LineTooLong after 2 lines\n'
finish

begin 'a line that is too long, and has no end'
archive "$five"
head -c 3000000 /dev/zero > input
run run a.cab
prints ''
ends 1 'cab: run: LineTooLong after 0 lines\n'
holds a.cab "$five"
finish

for output in /dev/full closed; do
    begin "answers are not written: $output"
    archive "$five"
    lines 'get\n'
    if [ $output = closed ]; then
        "$cab" run a.cab < input >&- 2> errors
    else
        "$cab" run a.cab < input > $output 2> errors
    fi
    ended=$?
    ends 1 'cab: run: Write after 1 lines\n'
    holds a.cab "$five"
    lines 'set int 6\n'
    if [ $output = closed ]; then
        "$cab" run a.cab < input >&- 2> errors
    else
        "$cab" run a.cab < input > $output 2> errors
    fi
    ended=$?
    ends 1 'cab: run: Write after 1 lines\n'
    holds a.cab "$six"
    finish
done

begin 'a reader of the answers that goes away'
archive "$five"
{ echo 'set int 6'; yes get | head -n 1000000; } > input
{ "$cab" run a.cab < input 2> errors; echo $? > status; } | head -n 1 > output
ended=$(cat status)
prints 'ok\n'
grep -qx 'cab: run: Write after [0-9]* lines' errors || differs "its faults were $(cat errors)"
[ "$ended" = 1 ] || differs "it ended with status $ended"
holds a.cab "$six"
finish

# More than a pipe holds, so that cab has read its archive when the last of the lines are written.
many_gets() {
    yes get | head -n 100000
}

prints_many() {
    { yes 'int 5' | head -n 100000; printf "$1"; } | cmp -s - output || differs 'it printed something else'
}

begin 'a file that goes away before it is written back'
archive "$five"
{ many_gets; rm a.cab; echo 'set int 6'; } | "$cab" run a.cab > output 2> errors
ended=$?
prints_many 'ok\n'
ends 1 'cab: cannot write a.cab\n'
leaves
finish

begin 'of two faults the first is told'
archive "$five"
{ many_gets; rm a.cab; echo 'set int 6'; long_line 1048577; } | "$cab" run a.cab > output 2> errors
ended=$?
prints_many 'ok\n'
ends 1 'cab: run: LineTooLong after 100001 lines\n'
lacks a.cab
finish

begin 'the standard input is closed'
archive "$five"
"$cab" run a.cab <&- > output 2> errors
ended=$?
prints ''
ends 1 'cab: run: Read after 0 lines\n'
holds a.cab "$five"
finish

begin 'the standard error is closed'
archive "$five"
lines 'set int 6\n'
"$cab" run a.cab more < input > output 2>&-
ended=$?
: > errors
ends 2 ''
"$cab" run a.cab < input > /dev/full 2>&-
ended=$?
ends 1 ''
holds a.cab "$six"
finish

begin 'lines that come in pieces'
archive "$five"
{ printf 'ge'; sleep 0.2; printf 't\nset '; sleep 0.2; printf 'int 6\nget\n'; } | "$cab" run a.cab > output 2> errors
ended=$?
prints 'int 5\nok\nint 6\n'
ends 0 ''
holds a.cab "$six"
finish

begin 'many lines'
archive "$five"
{ seq 1 100000 | sed 's/^/set int /; a get'; } > input
run run a.cab
seq 1 100000 | sed 's/^/int /; i ok' | cmp -s - output || differs 'it printed something else'
ends 0 ''
holds a.cab 0100000000000000a0860100000000000000000000000000
finish

begin 'an edit of one element of many'
{ echo 'list 100000'; seq 1 100000 | sed 's/^/int /'; } > text
run build text a.cab
prints 'built 2400024\n'
cp a.cab before.cab
lines 'get #99999\nset int 5 #50000\nget #50000\nget #49999\nget #50001\nget\n'
run run a.cab
prints 'int 100000\nok\nint 5\nint 50000\nint 50002\nlist 100000\n'
ends 0 ''
sed -i '50002s/.*/int 5/' text
run build text after.cab
cmp -s a.cab after.cab || differs 'the bytes are not those of the edited document'
[ "$(cmp -l before.cab a.cab | wc -l)" = 2 ] || differs 'other bytes were written'
finish

# waits up to ten seconds for the answer to the first question, while the input has not ended yet
until_answered() {
    for _ in $(seq 100); do
        grep -q 'int 5' output && break
        sleep 0.1
    done
    cp output early
}

if command -v script > /dev/null; then
    begin 'an answer comes at once where the input is a terminal'
    archive "$five"
    : > output
    { echo get; until_answered; } | script -qec "'$cab' run a.cab" /dev/null > output 2> errors
    grep -q 'int 5' early || differs 'the answer waited for the end of the input'
    finish
fi

if command -v script > /dev/null; then
    begin 'a reader that goes away after the first of three answers'
    archive "$five"
    {
        echo 'set int 6'
        for _ in $(seq 100); do
            [ -e gone ] && break
            sleep 0.1
        done
        printf 'set int 7\nget\n'
    } | script -qec "{ '$cab' run a.cab 2> errors; echo \$? > status; } | { head -n 1 > output; exec <&-; touch gone; }" /dev/null > terminal
    ended=$(cat status)
    prints 'ok\n'
    # the second edit was done, and its answer was not written
    ends 1 'cab: run: Write after 2 lines\n'
    holds a.cab "$seven"
    finish
fi

# works TEXT LINES ANSWERS TEXT: the answers in the archive of a text, which then is that of another one
works() {
    begin "questions and edits in: $1"
    text "$1"
    run build text a.cab
    lines "$2"
    run run a.cab
    prints "$3"
    ends 0 ''
    text "$4"
    run build text after.cab
    cmp -s a.cab after.cab || differs 'the bytes are not those of the edited document'
    finish
}

works 'int 5\n' 'get\nset int 6\nget\n' 'int 5\nok\nint 6\n' 'int 6\n'
works 'list 2\nint 7\nint 19\n' 'get\nget #1\nset int 20 #1\nget #1\nget #2\nset bool true #0\nget #0 #0\n' \
    'list 2\nint 19\nok\nint 20\nmissing\nrefused\nmissing\n' 'list 2\nint 7\nint 20\n'
works "list 2\nsome\nint 5\ntext 'hello\\\\sworld!\n" \
    "get #0\nget #0 ?\nset int 6 #0 ?\nset text 'HELLO\\\\sWORLD! #1\nget #1\nget #1 ?\nset int 7 #0\nkeys\n" \
    "some\nint 5\nok\nok\ntext 'HELLO\\\\sWORLD!\nmissing\nrefused\nwrong\n" "list 2\nsome\nint 6\ntext 'HELLO\\\\sWORLD!\n"
works "list 3\nshared 'hello\\\\sworld!\nsome\nshared 'hello\\\\sworld!\nint 5\n" \
    "get #0\nget #1 ?\nset text 'HELLO\\\\sWORLD! #0\nset int 6 #2\nget #0\nget #0 #0\nkeys #0\n" \
    "shared 'hello\\\\sworld!\nshared 'hello\\\\sworld!\nrefused\nok\nshared 'hello\\\\sworld!\nmissing\nwrong\n" \
    "list 3\nshared 'hello\\\\sworld!\nsome\nshared 'hello\\\\sworld!\nint 6\n"
works "ordered 2\n'a\nlist 2\nbool true\ntext 'nine\\\\sbytes\n'b\nsome\nordered 1\n'c\nint 5\n" \
    "set text 'NINE\\\\sBYTES 'a #1\nset int -6 'b ? 'c\n" 'ok\nok\n' \
    "ordered 2\n'a\nlist 2\nbool true\ntext 'NINE\\\\sBYTES\n'b\nsome\nordered 1\n'c\nint -6\n"

# edited_as_built PATH LEAF LINE: after an edit in the file text's document, the bytes are those that cab build makes of
# the text whose line of this number is the leaf
edited_as_built() {
    run build text a.cab
    lines "set $2 $1\n"
    run run a.cab
    prints 'ok\n'
    ends 0 ''
    sed -i "$3s/.*/$2/" text
    run build text after.cab
    cmp -s a.cab after.cab || differs 'the bytes are not those of the edited document'
}

begin 'an edit of the last element of many'
{ echo 'list 100000'; seq 1 100000 | sed 's/^/int /'; } > text
edited_as_built '#99999' 'int -9223372036854775808' 100001
finish

begin 'an edit of the last of three elements to a negative number'
text "list 3\ntext 'a\nbool true\nint 7\n"
edited_as_built '#2' 'int -2' 4
finish

begin 'a document is printed by asking for it and for each element'
{ echo 'list 70000'; seq 1 35000 | sed "s/^/int -/; s/$/\ntext 'ab/"; } > text
run build text a.cab
{ echo get; seq -f 'get #%.0f' 0 69999; } > input
run run a.cab
cmp -s output text || differs 'it is not the text that the archive was built from'
ends 0 ''
finish

# ---- ordered maps

# asks NAME TEXT LINES ANSWERS: the answers in the archive of a text, which they leave as it was
asks() {
    begin "$1"
    text "$2"
    run build text a.cab
    ends 0 ''
    cp a.cab before.cab
    lines "$3"
    run run a.cab
    prints "$4"
    ends 0 ''
    cmp -s a.cab before.cab || differs 'the archive was written'
    finish
}

builds 'ordered 0' 060000000100000000000000000000000000000000000000
builds "ordered 2\n'coffee\nint 300\n'tea\nint 250" "$coffee"
builds "ordered 6\n'a\nint 1\n'b\nint 2\n'c\nint 3\n'd\nint 4\n'e\nint 5\n'f\nint 6" "$letters"
# of each entry the key's bytes and then those that its value leads to precede the node
builds "ordered 1\n'hello\\sworld!\ntext 'HELLO\\sWORLD!" \
    "68656c6c6f20776f726c642148454c4c4f20574f524c4421$(with "$(leaf x 0)" 4 8c000000e4ffffff 48 020000008c000000c0ffffff)$(map -180 1)"
builds "ordered 2\n'a\nordered 1\n'x\nint 1\n'b\nint 2" "$(leaf x 1)$(with "$(leaf a 0 b 2)" 48 "$(map -228 1)")$(map -180 2)"
builds "ordered 1\n'a\nordered 1\n'b\nint 1" "$(leaf b 1)$(with "$(leaf a 0)" 48 "$(map -228 1)")$(map -180 1)"
builds "list 2\nordered 1\n'a\nint 1\nordered 0" "$(leaf a 1)$(map -180 1)$(map 1 0)05000000ccffffff02000000000000000000000000000000"
builds "ordered 2\n'a\nshared 'x\n'b\nlist 1\nshared 'x" \
    "780000000000000003000000f4ffffff01000000$(zeros 12)$(with "$(leaf a 0 b 0)" 48 03000000acffffff01 72 050000009cffffff01)$(map -180 2)"
# a node's children, with what their values lead to, precede what its own values lead to
builds "ordered 12\n$(printf "'%s\\\\nint 0\\\\n" a b c d e)'f\nshared 'one\n'g\nshared 'two\n$(printf "'%s\\\\nint 0\\\\n" h i j k)'l\nint 0" \
    "$(leaf a 0 b 0 c 0 d 0 e 0)74776f0000000000$(with "$(leaf g 0 h 0)" 48 03000000c4ffffff03)6f6e650000000000$(
        with "$(inner "e8fdffff9cfeffff$absent$absent$absent$absent" f 0 i 0 j 0 k 0 l 0)" 48 03000000c4ffffff03
    )$(map -196 12)"

# decimals N: the text of an ordered map whose keys are the numbers below N, each with its number
decimals() {
    echo "ordered $1"
    seq 0 $(($1 - 1)) | LC_ALL=C sort | sed "s/.*/'&\nint &/"
}

for counted in '0 24' '1 200' '5 200' '6 392' '17 744' '35 1272' '36 1464' '112 4136' '215 7704'; do
    read -r count size <<< "$counted"
    begin "an ordered map of $count keys, each of which answers"
    decimals "$count" > text
    run build text a.cab
    prints "built $size\n"
    ends 0 ''
    cp a.cab before.cab
    { seq 0 "$count" | sed "s/.*/get '&/"; echo keys; } > input
    run run a.cab
    { seq -f 'int %.0f' 0 $((count - 1)); echo missing; echo "keys $count$(grep "^'" text | sed 's/^/ /' | tr -d '\n')"; } > expected
    cmp -s output expected || differs 'the answers are others'
    ends 0 ''
    cmp -s a.cab before.cab || differs 'the archive was written'
    is_shown
    finish
done

answers_in "$coffee" 'questions and edits under a key' \
    "get\nget 'tea\nset int 275 'tea\nget 'tea\nget 'coffee\n" 'ordered 2\nint 250\nok\nint 275\nint 300\n' "$(with "$coffee" 80 1301)"
answers_in "$coffee" 'edits of other kinds, and of a map' \
    "set bool true 'tea\nset text 'hot 'tea\nset int 5\nset text 'tea\nget 'tea\n" 'refused\nrefused\nrefused\nrefused\nint 250\n' "$coffee"
answers_in "$coffee" 'steps of other kinds in a map' \
    "get #0\nget ?\nget 'tea 'tea\nget 'tea #0\nset int 5 #0\nkeys #0\n" 'missing\nmissing\nmissing\nmissing\nmissing\nmissing\n' "$coffee"
answers_in "$letters" 'edits in a leaf and in an inner node' \
    "set int -1 'a\nset int 70000 'f\nget 'a\nget 'b\nget 'e\nget 'f\n" 'ok\nok\nint -1\nint 2\nint 5\nint 70000\n' \
    "$(with "$letters" 56 ffffffffffffffff 328 701101)"
answers_in "$(with "$coffee" 188 aaaaaaaaaaaaaaaaaaaaaaaa)bbbbbbbbbbbbbb" 'bytes of a map that no field has, and bytes behind it, stay' \
    "set int 275 'tea\nget\n" 'ok\nordered 2\n' "$(with "$coffee" 80 1301 188 aaaaaaaaaaaaaaaaaaaaaaaa)bbbbbbbbbbbbbb"
# keys 2 to 4 look like texts out of line, values 2 to 4 have a tag that is none
used=$(with "$coffee" 1 aaaaaa 20 "$(printf '80%.0s' {1..24})" 44 bbbbbbbb 96 "$(printf 'cc%.0s' {1..72})" 172 dddddddd)
answers_in "$used" 'slots that are not used' "keys\nset int 275 'tea\nrange 'd 'z\n" "keys 2 'coffee 'tea\nok\nkeys 1 'tea\n" "$(with "$used" 80 1301)"
# the pointer of a map without keys is not followed
for pointer in 01000000 fcffffff 00000080; do
    answers_in "06000000$pointer$(zeros 16)" "an empty map with the pointer $pointer" \
        "get\nkeys\nrange ' 'z\nget 'a\nget '\nset int 5 'a\n" 'ordered 0\nkeys 0\nkeys 0\nmissing\nmissing\nmissing\n' "06000000$pointer$(zeros 16)"
done

asks 'keys of a map' "ordered 6\n'a\nint 1\n'b\nint 2\n'c\nint 3\n'd\nint 4\n'e\nint 5\n'f\nint 6\n" \
    "keys\nget\nget 'a\nget 'b\nget 'c\nget 'd\nget 'e\nget 'f\n" "keys 6 'a 'b 'c 'd 'e 'f\nordered 6\nint 1\nint 2\nint 3\nint 4\nint 5\nint 6\n"

bars="ordered 4\n'bar\nint 20\n'bat\nint 80\n'baz\nint 40\n'foo\nint 10\n"
asks 'ranges' "$bars" "range 'bat 'foo\nrange 'foo 'bat\nrange 'bat 'bat\nrange 'a 'z #0\n" "keys 2 'bat 'baz\nkeys 0\nkeys 0\nmissing\n"
asks 'a range has its first bound, and not its last one' "$bars" \
    "range 'bar 'foo\nrange 'bar 'fooa\nrange 'baz 'foo\nrange 'foo 'fooa\nrange 'bara 'baz\n" \
    "keys 3 'bar 'bat 'baz\nkeys 4 'bar 'bat 'baz 'foo\nkeys 1 'baz\nkeys 1 'foo\nkeys 1 'bat\n"
asks 'ranges between, before and after the keys' "$bars" \
    "range 'c 'd\nrange 'bas 'bat\nrange 'a 'bar\nrange ' '\nrange ' 'a\nrange 'fooa 'z\nrange 'g 'z\n" \
    'keys 0\nkeys 0\nkeys 0\nkeys 0\nkeys 0\nkeys 0\nkeys 0\n'
asks 'ranges whose first bound is above the last one' "$bars" \
    "range 'z 'a\nrange 'foo 'bar\nrange 'bau 'bas\nrange 'a '\nrange 'bat 'bar\n" 'keys 0\nkeys 0\nkeys 0\nkeys 0\nkeys 0\n'
asks 'ranges of all keys' "$bars" "range 'a 'z\nrange ' 'g\nrange 'bar 'z\n" \
    "keys 4 'bar 'bat 'baz 'foo\nkeys 4 'bar 'bat 'baz 'foo\nkeys 4 'bar 'bat 'baz 'foo\n"
asks 'keys and ranges of what lies under a key' "$bars" \
    "keys 'bar\nrange 'a 'z 'bar\nkeys 'ba\nrange 'a 'z 'ba\nkeys 'bar 'bar\nrange 'a 'z ?\n" 'wrong\nwrong\nmissing\nmissing\nmissing\nmissing\n'
asks 'ranges without their bounds' "$bars" "range\nrange 'a\nrange 'a #0\nrange a z\nrange  'a 'z\nrange 'a 'z \nrange 'a 'z z\n" \
    'bad\nbad\nbad\nbad\nbad\nbad\nbad\n'
asks 'a key that is not there' "$bars" \
    "get 'a\nget 'baq\nget 'bas\nget 'bau\nget 'c\nget 'z\nget 'ba\nget 'bata\nget '\nget 'BAT\n" \
    'missing\nmissing\nmissing\nmissing\nmissing\nmissing\nmissing\nmissing\nmissing\nmissing\n'
asks 'edits under a key that is not there' "$bars" \
    "set int 1 'a\nset int 1 'bas\nset int 1 'z\nset int 1 'ba\nset int 1 'bata\nset bool true '\nset text 'bas 'bas\nset int 1 'bat 'bat\n" \
    'missing\nmissing\nmissing\nmissing\nmissing\nmissing\nmissing\nmissing\n'

# three levels of nodes; the keys 00, 02 and so on to 98
begin 'keys and ranges over many nodes'
{ echo 'ordered 50'; seq -f "'%02.0f" 0 2 98 | sed 's/$/\nnone/'; } > text
run build text a.cab
ends 0 ''
# for each number to 99 what is under it, the key from it on and below the next one, and all keys from it on
seq -f %02.0f 0 99 | sed "s/.*/get '&\nrange '& '&a\nrange '& 'a/" > input
echo keys >> input
for key in $(seq -f %02.0f 0 99); do
    from=$(seq -f "'%02.0f" $(((10#$key + 1) / 2 * 2)) 2 98)
    rest="keys $(wc -w <<< "$from")$(printf ' %s' $from)"
    [ -n "$from" ] || rest='keys 0'
    if [ $((10#$key % 2)) = 0 ]; then
        printf '%s\n' none "keys 1 '$key" "$rest"
    else
        printf '%s\n' missing 'keys 0' "$rest"
    fi
done > expected
echo "keys 50$(seq -f " '%02.0f" 0 2 98 | tr -d '\n')" >> expected
run run a.cab
cmp -s output expected || differs "$(diff output expected | head -n 4 | tr '\n' '|')"
ends 0 ''
finish

nested="ordered 3\n'a\nordered 2\n'x\nint 1\n'y\nlist 2\nint 2\nordered 1\n'z\nint 3\n'b\nsome\nordered 1\n'x\nint 4\n'c\nnone\n"
asks 'the keys of a map are not those of the maps in it' "$nested" \
    "keys\nrange ' '~\nkeys 'a\nkeys 'a 'y #1\nkeys 'b ?\nrange 'x 'y 'a\nget 'x\nget 'z\nget 'a 'z\nget 'a 'a\nset int 5 'x\n" \
    "keys 3 'a 'b 'c\nkeys 3 'a 'b 'c\nkeys 2 'x 'y\nkeys 1 'z\nkeys 1 'x\nkeys 1 'x\nmissing\nmissing\nmissing\nmissing\nmissing\n"
asks 'questions in maps, lists and options' "$nested" \
    "get\nget 'a\nget 'a 'x\nget 'a 'y\nget 'a 'y #0\nget 'a 'y #1\nget 'a 'y #1 'z\nget 'b\nget 'b ?\nget 'b ? 'x\nget 'c\nget 'c ?\nkeys 'b\nkeys 'a 'y\nkeys 'c\nrange 'a 'z 'b\n" \
    'ordered 3\nordered 2\nint 1\nlist 2\nint 2\nordered 1\nint 3\nsome\nordered 1\nint 4\nnone\nmissing\nwrong\nwrong\nwrong\nwrong\n'

for edit in "'a 'x|int -3|5" "'a 'y #0|int 70000|8" "'a 'y #1 'z|int 9|11" "'b ? 'x|int -4|16"; do
    IFS='|' read -r path leaf line <<< "$edit"
    begin "an edit at $path"
    text "$nested"
    edited_as_built "$path" "$leaf" "$line"
    finish
done

begin 'an edit under a key'
text "ordered 2\n'coffee\nint 300\n'tea\nint 250\n"
edited_as_built "'tea" 'int 275' 5
finish

begin 'an edit of a text under a key, where both have more than eight bytes'
text "ordered 2\n'ten\\sletters\ntext 'nine\\sbytes\n'zoo\nbool true\n"
edited_as_built "'ten\\\\sletters" "text 'NINE\\\\sBYTES" 3
finish

# by their bytes the keys are 0a, 20, 5a, 61 0a 62, 61 20 62, 61 5c 62, 61 62, c3 a9, after the empty one
odd="ordered 9\n'\nint 0\n'\\\\n\nint 1\n'\\\\s\nint 2\n'Z\nint 3\n'a\\\\nb\nint 4\n'a\\\\sb\nint 5\n'a\\\\\\\\b\nint 6\n'ab\nint 7\n'\xc3\xa9\nint 8\n"
asks 'keys of other characters' "$odd" \
    "get '\nget '\\\\n\nget '\\\\s\nget 'Z\nget 'a\\\\nb\nget 'a\\\\sb\nget 'a\\\\\\\\b\nget 'ab\nget '\xc3\xa9\nget 'a\nget 'e\n" \
    'int 0\nint 1\nint 2\nint 3\nint 4\nint 5\nint 6\nint 7\nint 8\nmissing\nmissing\n'
asks 'keys ascend by their bytes' "$odd" \
    "keys\nrange 'a 'b\nrange '\\\\s 'a\nrange ' '\\\\s\nrange 'b '\xc4\nrange 'z '\xc3\xaa\n" \
    "keys 9 ' '\\\\n '\\\\s 'Z 'a\\\\nb 'a\\\\sb 'a\\\\\\\\b 'ab '\xc3\xa9\nkeys 4 'a\\\\nb 'a\\\\sb 'a\\\\\\\\b 'ab\nkeys 2 '\\\\s 'Z\nkeys 2 ' '\\\\n\nbad\nkeys 1 '\xc3\xa9\n"
# of which those of eight bytes lie in the node, and those of more before it
asks 'long keys' "ordered 5\n'aaaaaaa\nint 7\n'aaaaaaaa\nint 8\n'aaaaaaaaa\nint 9\n'aaaaaaaaaa\nint 10\n'aaaaaaab\nint 11\n" \
    "keys\nget 'aaaaaaa\nget 'aaaaaaaa\nget 'aaaaaaaaa\nget 'aaaaaaaaaa\nget 'aaaaaaaaaaa\nget 'aaaaaaab\nrange 'aaaaaaaa 'aaaaaaab\nrange 'aaaaaaaaaaa 'z\n" \
    "keys 5 'aaaaaaa 'aaaaaaaa 'aaaaaaaaa 'aaaaaaaaaa 'aaaaaaab\nint 7\nint 8\nint 9\nint 10\nmissing\nint 11\nkeys 3 'aaaaaaaa 'aaaaaaaaa 'aaaaaaaaaa\nkeys 1 'aaaaaaab\n"

begin 'an edit under one key of many'
{ echo 'ordered 100000'; seq -f "'%06.0f" 1 100000 | sed 's/$/\nint 300/'; } > text
run build text a.cab
# of 100,000 entries 3,334 nodes have children and 16,666 have none
prints "built $((3334 * 192 + 16666 * 176 + 24))\n"
cp a.cab before.cab
lines "get '050000\nset int 301 '050000\nget '050000\nget '049999\nget '050001\nrange '049999 '050002\nget '0500000\nget\n"
run run a.cab
prints "int 300\nok\nint 301\nint 300\nint 300\nkeys 3 '049999 '050000 '050001\nmissing\nordered 100000\n"
ends 0 ''
sed -i '100001s/.*/int 301/' text
run build text after.cab
cmp -s a.cab after.cab || differs 'the bytes are not those of the edited document'
[ "$(cmp -l before.cab a.cab | wc -l)" = 1 ] || differs 'other bytes were written'
finish

begin 'a map is printed by asking for its keys and for what is under each'
{ echo 'ordered 3000'; seq -f "'%04.0f" 1 3000 | sed "s/\(.*\)/\1\ntext \1/"; } > text
run build text a.cab
ends 0 ''
echo keys > input
run run a.cab
{ echo get; tr ' ' '\n' < output | sed '1,2d; s/^/get /'; } > input
tr ' ' '\n' < output | sed '1d; 2s/^/ordered /' > heads
run run a.cab
sed 1d output | paste -d '\n' <(sed 1d heads) - | sed "1i $(head -n 1 output)" | cmp -s - text || differs 'it is not the text that the archive was built from'
ends 0 ''
finish

# ---- trees that saving does not write

begin 'a tree whose one child is a leaf without entries'
empty_leaf=$(zeros 176)$(inner "$absent$absent$absent$absent${absent}94feffff" a 1 b 2 c 3 d 4 e 5)$(map -196 5)
archive "$empty_leaf"
lines "get\nkeys\nrange 'b 'd\nrange 'bb 'e\nrange 'e 'z\nrange ' 'a\nrange 'f 'z\nrange 'd 'b\nrange 'b 'b\n"
run run a.cab
prints "ordered 5\nkeys 5 'a 'b 'c 'd 'e\nkeys 2 'b 'c\nkeys 2 'c 'd\nkeys 1 'e\nkeys 0\nkeys 0\nkeys 0\nkeys 0\n"
ends 0 ''
lines "get 'a\nget 'e\nget 'f\nget '\nget #0\nget ?\nget 'a 'a\nkeys 'a\nkeys 'f\nrange 'a 'z 'a\nrange 'a 'z #0\n"
run run a.cab
prints 'int 1\nint 5\nmissing\nmissing\nmissing\nmissing\nmissing\nwrong\nmissing\nwrong\nmissing\n'
ends 0 ''
lines "set int 9 'c\nset bool true 'c\nset int 9\nset int 9 'f\nget 'c\n"
run run a.cab
prints 'ok\nrefused\nrefused\nmissing\nint 9\n'
ends 0 ''
holds a.cab "$(with "$empty_leaf" 280 09)"
finish

# tall_nodes LEVELS [VALUE]: inner nodes, one on each level, linked by their greater pointers alone. The keys are 000 and so
# on from the root on, each with the number 0, but for the last one, whose node begins with VALUE if that is given.
tall_nodes() {
    local level key pairs greater=$absent value=${2:-}
    for ((level = $1; level > 0; level--)); do
        pairs=()
        for ((key = 5 * level - 5; key < 5 * level; key++)); do
            printf -v pairs[${#pairs[@]}] %03d $key
            pairs+=(0)
        done
        # the fifth value is at 144
        with "$(inner "$absent$absent$absent$absent$absent$greater" "${pairs[@]}")" 144 "$value"
        value=
        greater=84feffff
    done | tr -d '\n'
}

begin 'a tree of 32 levels'
archive "$(tall_nodes 32)$(map -196 160)"
[ "$(stat -c %s a.cab)" = 6168 ] || differs "it has $(stat -c %s a.cab) bytes"
cp a.cab before.cab
lines "get\nkeys\nget '000\nset int 9 '159\nget '159\nget '158\nget '160\nrange '154 '156\nrange '159 '9\n"
run run a.cab
prints "ordered 160\nkeys 160$(seq -f " '%03.0f" 0 159 | tr -d '\n')\nint 0\nok\nint 9\nint 0\nmissing\nkeys 2 '154 '155\nkeys 1 '159\n"
ends 0 ''
[ "$(cmp -l before.cab a.cab)" = ' 153   0  11' ] || differs "other bytes were written: $(cmp -l before.cab a.cab | head -n 3)"
finish

begin 'a tree of 33 levels'
archive "$(tall_nodes 33)$(map -196 165)"
[ "$(stat -c %s a.cab)" = 6360 ] || differs "it has $(stat -c %s a.cab) bytes"
cp a.cab before.cab
lines "keys\nset int 9 '159\n"
run run a.cab
prints ''
ends 1 'cab: open: Access\n'
cmp -s a.cab before.cab || differs 'a.cab was written'
finish

# 64 maps, one in the other under the last key of a tree of 32 levels: nothing that is accepted lies deeper
begin 'the text under 64 keys, each at the end of a tree of 32 levels, with a stack of 1 MiB'
path=$(printf " '159%.0s" {1..64})
innermost=68656c6c6f20776f726c642100000000$(tall_nodes 32 020000008c0000005cffffff00000000)
archive "$innermost$(printf "$(tall_nodes 32 "06000000acfeffffa000000000000000")%.0s" {1..63})$(map -196 160)"
cp a.cab before.cab
lines "get$path\nset text 'HELLO\\sWORLD!$path\nget$path\nkeys${path% *}\n"
(ulimit -s 1024 && "$cab" run a.cab < input > output 2> errors)
ended=$?
prints "text 'hello\\sworld!\nok\ntext 'HELLO\\sWORLD!\nkeys 160$(seq -f " '%03.0f" 0 159 | tr -d '\n')\n"
ends 0 ''
[ "$(head -c 12 a.cab)" = 'HELLO WORLD!' ] || differs 'the text is another'
cmp -s <(tail -c +13 a.cab) <(tail -c +13 before.cab) || differs 'other bytes were written'
finish

# ---- trees that are not opened

unopened "$(with "$coffee" 168 06)" Access 'a leaf that says six entries'
unopened "$(with "$coffee" 168 01)" Access 'a map that says more entries than there are'
unopened "$(with "$coffee" 184 01)" Access 'a map that says fewer entries than there are'
unopened "$(with "$coffee" 0 02)" Access 'a node that is neither a leaf nor an inner node'
unopened "$(with "$coffee" 0 01)" Access 'an inner node that reaches into the root'
unopened "$(with "$coffee" 180 4d)" Access 'a node that does not begin at a multiple of 8'
unopened "$(with "$coffee" 180 01000000)" Access 'a map with keys and no node'
unopened "$(with "$coffee" 180 48)" Access 'a node before the first byte'
unopened "$(with "$coffee" 4 fe)" Access 'a key that is not UTF-8'
unopened "$(with "$coffee" 4 8100000000000000)" Access 'a key of one byte out of line'
unopened "$(with "$coffee" 72 0a)" Access 'a value that is none'
unopened "$(with "$coffee" 72 07)" Access 'a hashed map without a table in an ordered one'
unopened "$(with "$letters" 344 58ffffff)" Access 'a node inside itself'
unopened "$(with "$letters" 348 a4feffff)" Access 'two children at one position'
unopened "$(with "$letters" 344 "$absent")" Access 'a map whose first leaf is not linked'
unopened "$(leaf a 1)$(map -180 1)$(map -204 1)05000000ccffffff02000000000000000000000000000000" Access 'two maps with one tree'

# equal keys, of which the second one has other bytes behind its end
equal=$(with "$(leaf a 1 a 2)" 14 00)
unopened "$(leaf a 1 a 2)$(map -180 2)" KeysNotAscending 'a key twice'
unopened "$equal$(map -180 2)" KeysNotAscending 'a key twice, with other bytes behind its end'
unopened "$(with "$coffee" 4 746561ffffffffff 12 636f66666565ffff)" KeysNotAscending 'two keys that have changed places'
unopened "$(leaf a 1 ab 2 aa 3)$(map -180 3)" KeysNotAscending 'a last key that is not above the one before'
unopened "$(leaf a 1 '' 2)$(map -180 2)" KeysNotAscending 'an empty key that is not the first'
unopened "$(with "$letters" 4 67)" KeysNotAscending 'a key in the first child that is above those of its parent'
unopened "$(with "$letters" 4 62)" KeysNotAscending 'a key in the first child that its parent has'
unopened "$(with "$(tall_nodes 2)" 4 303034)$(map -196 10)" KeysNotAscending 'a key in the greater child that its parent has'
unopened "$(with "$(tall_nodes 32)" 4 303030)$(map -196 160)" KeysNotAscending 'a key on the last level that the root has'
unopened "$(leaf a 1 a 2)$(with "$(leaf a 0 b 2)" 48 "$(map -228 2)")$(map -180 2)" KeysNotAscending 'a map in a map with a key twice'

begin 'keys that ascend in each node of a saved archive, and not across them'
{ echo 'ordered 35'; seq -f "'%02.0f" 0 34 | sed 's/$/\nint 0/'; } > text
run build text a.cab
prints 'built 1272\n'
# the sixth leaf begins at 880, its keys at 884: the first one becomes the root's last one, 29 instead of 30
put 884 3239
cp a.cab before.cab
lines "keys\nset int 5 '00\n"
run run a.cab
prints ''
ends 1 'cab: open: KeysNotAscending\n'
cmp -s a.cab before.cab || differs 'a.cab was written'
finish

# of several faults the one that is met first: those of the layout first of all, and a container's own before its parts'
options=$(printf "$some%.0s" {1..63})
unopened "$(with "$(leaf a 1 a 2)" 72 0a)$(map -180 2)" Access 'a key twice, and a value that is none'
unopened "$(leaf a 1 a 2)$(map -180 2)$options" KeysNotAscending 'a key twice in 63 options'
unopened "$(leaf a 1 a 2)$(map -180 2)$options$some" TooDeep 'a key twice in 64 options'
unopened "$five$options$(with "$(leaf a 0 a 0)" 48 0400000001000000b0ffffff)$(map -180 2)" KeysNotAscending 'a key twice, and a value that lies too deep'
unopened "$five$options$(with "$(leaf a 0 b 0)" 48 0400000001000000b0ffffff)$(map -180 2)" TooDeep 'a value that lies too deep'
unopened "$(leaf a 1 a 2)$five$options$(map -1716 2)0400000001000000c8ffffff$(zeros 12)05000000ccffffff02000000000000000000000000000000" \
    KeysNotAscending 'a key twice, and behind it an element that lies too deep'
unopened "$five$options$(leaf a 1 a 2)040000000100000030ffffff$(zeros 12)$(map -204 2)05000000ccffffff02000000000000000000000000000000" \
    TooDeep 'an element that lies too deep, and behind it a key twice'

begin 'an empty map in 63 options, and in 64'
archive "$(map 1 0)$options"
lines "keys$(printf ' ?%.0s' {1..63})\n"
run run a.cab
prints 'keys 0\n'
ends 0 ''
archive "$(map 1 0)$options$some"
run run a.cab
prints ''
ends 1 'cab: open: TooDeep\n'
finish

begin '64 options and maps, one in the other'
text "$(printf "some\\\\nordered 1\\\\n'a\\\\n%.0s" {1..32})int 5\n"
run build text a.cab
# each map takes a leaf and the node that its option leads to; the options lie in the leaves, all but the root
prints "built $((32 * (176 + 24) + 24))\n"
lines "get$(printf " ? 'a%.0s" {1..32})\nset int 6$(printf " ? 'a%.0s" {1..32})\nkeys$(printf " ? 'a%.0s" {1..31}) ?\n"
run run a.cab
prints "int 5\nok\nkeys 1 'a\n"
ends 0 ''
# one more option around them
cat <(cat a.cab) <(printf "$(sed 's/../\\x&/g' <<< "$some")") > more.cab
cp more.cab before.cab
run run more.cab
prints ''
ends 1 'cab: open: TooDeep\n'
cmp -s more.cab before.cab || differs 'more.cab was written'
finish

for outcome in 'TooDeep 65' 'TooDeep 2198' 'Access 2199'; do
    nests 2 maps "$(leaf a 5)" "$(with "$(leaf a 0)" 48 06000000 52 "$(word -228)" 56 01)" "$(map -180 1)" $outcome
done

# opens OUTCOME NAME: opens the bytes in `made`, which are accepted, or refused for a cause
opens() {
    local fault=
    archive "$made"
    run run a.cab
    read -r fault < errors
    case $1 in
        accepted) [ "$ended$fault" = 0 ] || differs "$2 ended with status $ended and $fault" ;;
        *) [ "$ended$fault" = "1cab: open: $1" ] || differs "$2 ended with status $ended and $fault" ;;
    esac
}

# of three nodes: the leaf before the root's first key, the root, and the leaf after its last key
begin 'keys ascend in each node and across nodes'
while read -r outcome before keys after; do
    made=
    push_leaf "$before" $made_fives
    first=$at
    push_leaf "$after" $made_fives
    push_inner "$keys" "$first - - - - $at" $made_fives
    push_node "map:$at:15"
    opens "$outcome" "$before $keys $after"
done << 'ROWS'
accepted abcde fghij klmno
accepted 12ABC DEabc xyz{~
accepted -abcd fghij klmno
KeysNotAscending aacde fghij klmno
KeysNotAscending abcdd fghij klmno
KeysNotAscending --cde fghij klmno
KeysNotAscending abcde fghii klmno
KeysNotAscending abcde fghij klmmo
KeysNotAscending abcdf fghij klmno
KeysNotAscending abcde fghij jlmno
KeysNotAscending bacde fghij klmno
KeysNotAscending a-cde fghij klmno
KeysNotAscending abcde fgihj klmno
KeysNotAscending abcde fghij klmon
KeysNotAscending abcdg fhijk lmnop
KeysNotAscending abcde fghik jlmno
KeysNotAscending klmno fghij abcde
ROWS
finish

begin 'the keys of each child lie between the keys around it'
for place in {0..5}; do
    for key in {a..k}; do
        children=(- - - - - -)
        children[place]=0
        made=
        push_leaf "$key" "$made_five"
        push_inner bdfhj "${children[*]}" $made_fives
        push_node "map:$at:6"
        letters=acegik
        [ "$key" = "${letters:place:1}" ] && outcome=accepted || outcome=KeysNotAscending
        opens "$outcome" "$key in child $place"
    done
done
finish

# push_part KEYS: what a map of two keys leads to, or for `deep` 64 options in one another; sets `node` to it
push_part() {
    if [ "$1" = deep ]; then
        push_tower 64 "$made_five" some
    else
        push_leaf "$1" "$made_five" "$made_five"
        node=map:$at:2
    fi
}

# push_two CONTAINER FIRST SECOND: a list of two parts, a map with both in its one leaf, or a map with the first one in a
# leaf and the second one in the inner node after it
push_two() {
    local first leaf=0
    push_part "$2"
    first=$node
    if [ "$1" = inner ]; then
        push_leaf a "$first"
        leaf=$at
    fi
    push_part "$3"
    case $1 in
        list)
            at=$((${#made} / 2))
            push_node "$first"
            push_node "$node"
            push_node "list:$at:2"
            ;;
        leaf)
            push_leaf ab "$first" "$node"
            push_node "map:$at:2"
            ;;
        inner)
            push_inner bcdef "$leaf - - - - -" "$node" "$made_five" "$made_five" "$made_five" "$made_five"
            push_node "map:$at:6"
            ;;
    esac
}

begin 'keys ascend afresh in each map, and the first fault is told'
while read -r outcome first second; do
    for container in list leaf inner; do
        made=
        push_two $container "$first" "$second"
        opens "$outcome" "$first $second in $container"
    done
done << 'ROWS'
accepted yz 12
accepted yz yz
KeysNotAscending yz 21
TooDeep deep ab
TooDeep ab deep
TooDeep deep ba
KeysNotAscending ba deep
ROWS
finish

# options around a map of two keys, and below its first one
begin 'a node is audited before the nodes in it'
while read -r outcome around keys below; do
    made=
    push_tower "$below" "$made_five" some
    push_leaf "$keys" "$node" "$made_five"
    push_tower "$around" "map:$at:2" some
    push_node "$node"
    opens "$outcome" "$keys between $around and $below"
done << 'ROWS'
accepted 0 ab 63
TooDeep 0 ab 64
KeysNotAscending 0 ba 64
KeysNotAscending 0 ba 63
accepted 63 ab 0
KeysNotAscending 63 ba 0
KeysNotAscending 63 ba 1
TooDeep 63 ab 1
TooDeep 64 ab 0
TooDeep 64 ba 0
ROWS
finish

# deepest NAME TIMES NODE KIND..: so many times these containers around a node are accepted, and one more container is too
# deep
deepest() {
    local tower most outer
    begin "$2 times $1, and one more container"
    made=68656c6c6f20776f726c64212e2e2e2e
    push_tower "${@:2}"
    tower=$made
    most=$node
    push_node "$most"
    opens accepted 'the tower'
    for outer in some list map; do
        made=$tower
        push_inside $outer "$most"
        push_node "$node"
        opens TooDeep "$outer around the tower"
    done
    finish
}

# shared text is no container; an option of nothing, and a list and a map without elements are
empty_list=plain:05000000fcffffff$(zeros 16)
deepest 'an option, around a number' 64 "$made_five" some
deepest 'an option, around an option of nothing' 63 "plain:$none" some
deepest 'an option, around a shared text' 64 shared:0:12 some
deepest 'an option, around an empty map' 63 "$made_empty_map" some
deepest 'a list, around a number' 64 "$made_five" list
deepest 'a list, around an empty list' 63 "$empty_list" list
deepest 'a list, around a shared text' 64 shared:0:12 list
deepest 'a list, around an empty map' 63 "$made_empty_map" list
deepest 'a map, around a number' 64 "$made_five" map
deepest 'a map, around an empty map' 63 "$made_empty_map" map
deepest 'a map, around an option of nothing' 63 "plain:$none" map
deepest 'a map, a list, a map and an option, around a number' 16 "$made_five" map list map some
deepest 'seven containers of each kind, around an empty map' 9 "$made_empty_map" map some list map map list some

# the layout holds no length and no check sum, so some of the first bytes of an archive are archives too
begin 'the first bytes of an archive are refused or answered'
lines 'get\n'
escaped=$(sed 's/../\\x&/g' <<< "$under_eu")
mkdir folder
for len in {0..344}; do
    printf "${escaped:0:4 * len}" | tee folder/$len >> expected
    run run folder/$len
    answer= fault=
    read -r answer < output
    read -r fault < errors
    case $len in
        ? | 1? | 2[0-3]) wanted='1 cab: open: Access' ;;
        2[4-9] | 3[01]) wanted='0int 7 ' ;;
        33[6-9] | 34[0-3]) wanted='0int -773094113274 ' ;;
        344) wanted='0ordered 1 ' ;;
        *) wanted= ;;
    esac
    case ${wanted:-any} in
        "$ended$answer $fault") ;;
        any)
            case "$ended$answer $fault" in
                0?*' ' | '1 cab: open: '?*) ;;
                *) differs "of $len bytes it answered $answer, with the fault $fault" ;;
            esac
            ;;
        *) differs "of $len bytes it answered $answer, with the fault $fault" ;;
    esac
done
for len in {0..344}; do
    echo folder/$len
done | xargs cat | cmp -s - expected || differs 'an archive was written'
finish

# flips NAME HEX LINES N: opens the bytes with each single bit changed. N times they are the archive of a document, and
# answer each line; else they are refused, and left as they were.
flips() {
    local bytes at bit changed names=() asked accepted=0
    begin "$1"
    lines "$3"
    asked=$(wc -l < input)
    bytes=$(sed 's/../\\x&/g' <<< "$2")
    mkdir folder
    for ((at = 0; at < ${#2} / 2; at++)); do
        for bit in 1 2 4 8 16 32 64 128; do
            printf -v changed %02x $((0x${2:2 * at:2} ^ bit))
            changed=${bytes:0:4 * at}\\x$changed${bytes:4 * at + 4}
            printf "$changed" > folder/$at.$bit
            "$cab" run folder/$at.$bit < input > output 2> errors
            ended=$?
            if [ $ended = 0 ]; then
                mapfile answered < output
                [ ${#answered[@]} = "$asked" ] || differs "with bit $bit of byte $at it answered ${#answered[@]} lines"
                accepted=$((accepted + 1))
            else
                read -r fault < errors
                case "$ended $fault" in
                    '1 cab: open: Access' | '1 cab: open: TooDeep') ;;
                    '1 cab: open: KeysNotAscending' | '1 cab: open: WrongTag' | '1 cab: open: NotFound') ;;
                    *) differs "with bit $bit of byte $at it ended with status $ended and $fault" ;;
                esac
                [ ! -s output ] || differs "with bit $bit of byte $at it answered"
                names+=("folder/$at.$bit")
                printf "$changed" >> expected
            fi
        done
    done
    cat "${names[@]}" | cmp -s - expected || differs 'an archive that was refused was written'
    [ $accepted = "$4" ] || differs "$accepted were opened, and not $4"
    finish
}

flips 'each bit of a map with one leaf' "$coffee" "get\nkeys\nrange 'd 'z\nget 'coffee\nset int 275 'tea\nget 'tea\n" 1451
flips 'each bit of a map with two nodes' "$letters" "get\nkeys\nrange 'b 'e\nget 'a\nset int 7 'f\nget 'f\n" 2699

# ---- hashed maps

begin 'the hashes by which the tables below are filled'
hash_of a
[ "$(printf %x $hash)" = aa44c3c5b8e22aff ] || differs "that of a is $(printf %x $hash)"
hash_of ''
[ "$(printf %x $hash)" = 2b44f56ffae88a6b ] || differs "that of the empty text is $(printf %x $hash)"
finish

builds 'hashed 0' 070000000100000000000000000000000000000000000000
builds "hashed 1\n'a\ntext 'world" "$world"
builds "hashed 1\n'a\nint 1" "$single"
builds "ordered 1\n'eu\nhashed 1\n'vat\nlist 2\nint 7\nint 19" "$under_eu"
builds "hashed 3\n'bar\nint 20\n'baz\nint 40\n'foo\nint 10" "$(table bar "$(number 20)" baz "$(number 40)" foo "$(number 10)")00$(hashed -36 3 4)"
builds "hashed 7\n$(printf "'%s\\\\nbool true\\\\n" a b c d e f)'g\nbool true" \
    "$(table $(for letter in a b c d e f g; do echo "$letter 0001$(zeros 22)"; done))00$(hashed -36 7 8)"
builds "list 2\nhashed 1\n'a\nint 1\nhashed 0" "$(table a "$(number 1)")00$(hashed -36 1 2)$(hashed 1 0 0)05000000ccffffff02000000000000000000000000000000"
# the key's bytes and then those that the value leads to precede the table
builds "hashed 1\n'hello\\sworld!\ntext 'HELLO\\sWORLD!" "$(
    hash_of 'hello world!'
    first_place 2
    bytes=68656c6c6f20776f726c642148454c4c4f20574f524c4421$(table x "$(number 0)")00$(hashed -36 1 2)
    # the bucket of place 1 is at 24, that of place 0 at 56; the text is 24 or 56 bytes before its key
    at=$((56 - 32 * place))
    printf -v tag %02x $((hash >> 57 & 127))
    with "$bytes" 24 "$(zeros 64)" $at "8c000000$(word $((-at)))020000008c000000$(word $((12 - at - 12)))$(zeros 12)" \
        88 ffffffff $((88 + place)) $tag $((90 + place)) $tag
)"
# a shared text lies once in the archive
builds "hashed 2\n'a\nshared 'x\n'b\nshared 'x" "$(
    pairs=()
    for letter in a b; do
        hash_of $letter
        first_place 3
        [ "$letter" = a ] && of_a=$place
    done
    [ $place != $of_a ] || place=$(((place + 1) % 3))
    # the text at 0; the buckets begin at 8 and end at 104, and the node's pointer is 12 bytes after its key
    for at in $((104 - 32 * (of_a + 1))) $((104 - 32 * (place + 1))); do
        pairs+=("03000000$(word $((-at - 12)))01000000$(zeros 12)")
    done
    echo "7800000000000000$(table a "${pairs[0]}" b "${pairs[1]}")00$(hashed -36 2 3)"
)"

for counted in '0 24' '1 120' '5 248' '6 280' '17 680' '35 1368' '36 1400' '112 4264' '215 8136'; do
    read -r count size <<< "$counted"
    begin "a hashed map of $count keys, each of which answers"
    decimals "$count" | sed 's/^ordered/hashed/' > text
    run build text a.cab
    prints "built $size\n"
    ends 0 ''
    cp a.cab before.cab
    { seq 0 "$count" | sed "s/.*/get '&/"; echo keys; echo get; } > input
    run run a.cab
    { seq -f 'int %.0f' 0 $((count - 1)); echo missing; echo wrong; echo "hashed $count"; } > expected
    cmp -s output expected || differs 'the answers are others'
    ends 0 ''
    cmp -s a.cab before.cab || differs 'the archive was written'
    is_shown
    finish
done

answers_in "$world" 'edits and questions under a key of a hashed map' \
    "set text 'WORLD 'a\nget 'a\nset text 'worlds 'a\nget 'a\nkeys\nget\n" "ok\ntext 'WORLD\nrefused\ntext 'WORLD\nwrong\nhashed 1\n" \
    "$(with "$world" 12 574f524c44)"
answers_in "$under_eu" 'a hashed map in an ordered one' \
    "get 'eu 'vat #1\nset int 20 'eu 'vat #1\nget 'eu 'vat #1\nget 'eu 'vat #0\nget 'eu 'vat #2\n" 'int 19\nok\nint 20\nint 7\nmissing\n' \
    "$(with "$under_eu" 32 14)"
answers_in "$single" 'a hashed map has no keys in an order' \
    "keys\nrange 'a 'b\nrange 'b 'a\nkeys 'a\nkeys 'b\nrange 'a 'b 'b\n" 'wrong\nwrong\nwrong\nwrong\nmissing\nmissing\n' "$single"
answers_in "$single" 'keys that are not there, and steps of other kinds, in a hashed map' \
    "get 'b\nget '\nget 'aa\nget #0\nget ?\nget 'a 'a\nget 'a #0\nset int 5 'b\nset int 5 #0\nset int 5\nset bool true 'a\nget 'a\n" \
    'missing\nmissing\nmissing\nmissing\nmissing\nmissing\nmissing\nmissing\nmissing\nrefused\nrefused\nint 1\n' "$single"
answers_in "$(with "$single" 32 "$(printf 'aa%.0s' {1..32})" 95 bb 112 "$(printf 'cc%.0s' {1..8})")dddddddddddddd" \
    'bytes of a hashed map that no field has' "set int 275 'a\nget 'a\n" 'ok\nint 275\n' \
    "$(with "$single" 16 1301 32 "$(printf 'aa%.0s' {1..32})" 95 bb 112 "$(printf 'cc%.0s' {1..8})")dddddddddddddd"
# an empty control is any byte from 80 on
answers_in "$(with "$single" 64 80 66 80 68 "$(printf '9f%.0s' {1..27})")" 'empty controls of another byte' "get 'a\nget 'b\n" 'int 1\nmissing\n' \
    "$(with "$single" 64 80 66 80 68 "$(printf '9f%.0s' {1..27})")"
# neither the pointer nor the number of places of a map without keys is looked at
for fields in 01000000 fcffffff 00000080; do
    answers_in "07000000${fields}00000000ffffffff$(zeros 8)" "an empty hashed map with the pointer $fields" \
        "get\nkeys\nget 'a\nset int 5 'a\n" 'hashed 0\nwrong\nmissing\nmissing\n' "07000000${fields}00000000ffffffff$(zeros 8)"
done
# of 32 places the sixteen from 31 on, which a search for a shows, begin with 31 and go on with 0
far=$(zeros 832)$(key a)$(number 1)$(zeros 160)$(printf 'ff%.0s' {1..47})00$(hashed -52 1 32)
found=$(with "$far" 1029 55 1061 55)
answers_in "$found" 'a key in another place that its search shows' "get 'a\nset int 2 'a\nget 'b\n" 'int 1\nok\nmissing\n' "$(with "$found" 848 02)"

nested="hashed 3\n'a\nhashed 2\n'x\nint 1\n'y\nlist 2\nint 2\nordered 1\n'z\nint 3\n'b\nsome\nhashed 1\n'x\nint 4\n'c\nnone\n"
asks 'questions in hashed maps, in lists, options and ordered maps' "$nested" \
    "get\nget 'a\nget 'a 'x\nget 'a 'y #0\nget 'a 'y #1\nget 'a 'y #1 'z\nkeys 'a 'y #1\nget 'b\nget 'b ?\nget 'b ? 'x\nget 'c\nget 'x\nget 'a 'a\nkeys 'a\nkeys 'b ?\n" \
    "hashed 3\nhashed 2\nint 1\nint 2\nordered 1\nint 3\nkeys 1 'z\nsome\nhashed 1\nint 4\nnone\nmissing\nmissing\nwrong\nwrong\n"

for edit in "'a 'x|int -3|5" "'a 'y #0|int 70000|8" "'a 'y #1 'z|int 9|11" "'b ? 'x|int -4|16"; do
    IFS='|' read -r path leaf line <<< "$edit"
    begin "an edit in a hashed map at $path"
    text "$nested"
    edited_as_built "$path" "$leaf" "$line"
    finish
done

asks 'keys of other characters in a hashed map' "${odd/ordered/hashed}" \
    "get '\nget '\\\\n\nget '\\\\s\nget 'Z\nget 'a\\\\nb\nget 'a\\\\sb\nget 'a\\\\\\\\b\nget 'ab\nget '\xc3\xa9\nget 'a\nget 'e\n" \
    'int 0\nint 1\nint 2\nint 3\nint 4\nint 5\nint 6\nint 7\nint 8\nmissing\nmissing\n'
# of one word, of a word and more, and of two words
asks 'long keys in a hashed map' "hashed 5\n'aaaaaaa\nint 7\n'aaaaaaaa\nint 8\n'aaaaaaaaa\nint 9\n'aaaaaaaaaaaaaaaa\nint 16\n'aaaaaaaaaaaaaaaaa\nint 17\n" \
    "get 'aaaaaaa\nget 'aaaaaaaa\nget 'aaaaaaaaa\nget 'aaaaaaaaaaaaaaaa\nget 'aaaaaaaaaaaaaaaaa\nget 'aaaaaa\nget 'aaaaaaaaaa\n" \
    'int 7\nint 8\nint 9\nint 16\nint 17\nmissing\nmissing\n'

begin 'an edit under one key of many in a hashed map'
{ echo 'hashed 100000'; seq -f "'%06.0f" 1 100000 | sed 's/$/\nint 300/'; } > text
run build text a.cab
# 114,285 places, which are filled up to 114,288 for the controls
prints "built $(((114285 * 32 + 114288 + 15 + 7) / 8 * 8 + 24))\n"
cp a.cab before.cab
lines "get '050000\nset int 301 '050000\nget '050000\nget '049999\nget '0500000\nget\n"
run run a.cab
prints "int 300\nok\nint 301\nint 300\nmissing\nhashed 100000\n"
ends 0 ''
sed -i '100001s/.*/int 301/' text
run build text after.cab
cmp -s a.cab after.cab || differs 'the bytes are not those of the edited document'
[ "$(cmp -l before.cab a.cab | wc -l)" = 1 ] || differs 'other bytes were written'
finish

begin 'hashed maps, lists and options 64 deep'
text "$(printf "some\\\\nhashed 1\\\\n'a\\\\n%.0s" {1..32})int 5\n"
run build text a.cab
ends 0 ''
lines "get$(printf " ? 'a%.0s" {1..32})\nset int 6$(printf " ? 'a%.0s" {1..32})\nget$(printf " ? 'a%.0s" {1..32})\n"
run run a.cab
prints 'int 5\nok\nint 6\n'
ends 0 ''
cat <(cat a.cab) <(printf "$(sed 's/../\\x&/g' <<< "$some")") > more.cab
cp more.cab before.cab
run run more.cab
prints ''
ends 1 'cab: open: TooDeep\n'
cmp -s more.cab before.cab || differs 'more.cab was written'
finish

# ---- tables that are not opened

unopened "$(with "$single" 108 01)" Access 'a hashed map with as many pairs as places'
unopened "$(with "$single" 67 54)" Access 'a control that is not repeated'
unopened "$(with "$single" 68 00)" Access 'a control past twice the places that is a tag'
unopened "$(with "$single" 65 ff 67 ff)" Access 'a hashed map that says more pairs than there are'
unopened "$(with "$single" 64 55 66 55)" Access 'a hashed map that says fewer pairs than there are'
unopened "$(with "$single" 100 01000000)" Access 'a table that reaches into the node'
unopened "$(with "$single" 100 d4)" Access 'a table that begins before the first byte'
unopened "$(with "$single" 0 fe)" Access 'a key of a hashed map that is not UTF-8'
unopened "$(with "$single" 0 8100000000000000)" Access 'a key of a hashed map of one byte out of line'
unopened "$(with "$single" 8 0a)" Access 'a value of a hashed map that is none'
unopened "$(with "$single" 8 08)" Access 'a kept map without a table in a hashed one'
unopened "$(table a "$(number 1)")00$(hashed -36 1 2)$(hashed -60 1 2)05000000ccffffff02000000000000000000000000000000" Access 'two hashed maps with one table'

unopened "$(with "$single" 65 54 67 54)" WrongTag 'a control that is another tag'
unopened "$(with "$single" 0 62)" WrongTag 'another key under the tag'
unopened "$(table a "$(number 1)" a "$(number 2)")00$(hashed -36 2 3)" NotFound 'a key twice in a hashed map'
unopened "$(with "$far" 1044 55)" WrongTag 'a tag over an empty bucket, whose key is eight bytes of zero'
unfound=$(zeros 352)$(key a)$(number 1)$(zeros 640)$(with "$(printf 'ff%.0s' {1..47})" 20 55)00$(hashed -52 1 32)
unopened "$unfound" NotFound 'a key in a place that its search does not show'

# of several faults the one that is met first: of a place its control before its search, and a map's own before its parts'
unopened "$(with "$unfound" 1044 54)" WrongTag 'a control that is another tag, in a place that the search does not show'
unopened "$(with "$single" 65 54 67 54)$options" WrongTag 'another tag in 63 options'
unopened "$(with "$single" 65 54 67 54)$options$some" TooDeep 'another tag in 64 options'
# with_double KEY: a hashed map with an ordered one under a key, in which a key is twice; the tree's leaf is at 0
with_double() {
    hash_of "$1"
    first_place 2
    echo "$(leaf a 1 a 2)$(table "$1" "$(map $((-(176 + 64 - 32 * (place + 1) + 12))) 2)")00$(hashed -36 1 2)"
}
unopened "$(with_double b)" KeysNotAscending 'a key twice in an ordered map in a hashed one'
hash_of b
first_place 2
unopened "$(with "$(with_double b)" $((240 + place)) 01 $((242 + place)) 01)" WrongTag 'another tag, and a key twice in the ordered map under it\'

flips 'each bit of a hashed map' "$world" "get\nkeys\nget 'a\nset text 'WORLD 'a\nget 'a\n" 763
flips 'each bit of a hashed map in an ordered one' "$under_eu" "get\nkeys\nget 'eu\nget 'eu 'vat\nset int 20 'eu 'vat #1\nget 'eu 'vat #1\n" 2356

for outcome in 'TooDeep 65' 'TooDeep 2198' 'Access 2199'; do
    nests 1 'hashed maps' "${world:0:192}" "${world:0:16}07000000d4ffffff0100000002000000$(zeros 40)${world:128:64}" "${world:192}" $outcome
done

# ---- kept maps

builds 'kept 0' 080000000100000000000000000000000100000000000000
builds "kept 2\n'z\nint 1\n'a\nint 2" "$z_and_a"
answers_in "$z_and_a" 'edits and questions under keys of a kept map' \
    "get\nkeys\nget 'a\nget 'b\nget #0\nset int 3 'a\nset bool true 'z\nget 'a\nget 'z\nrange 'a 'z\nkeys 'a\n" \
    "kept 2\nkeys 2 'z 'a\nint 2\nmissing\nmissing\nok\nrefused\nint 3\nint 1\nwrong\nwrong\n" "$(with "$z_and_a" 96 03)"
answers_in "$(with "$z_and_a" 132 aaaaaaaa)" 'bytes of a kept map that no field has' "get 'a\nset int 3 'a\n" 'int 2\nok\n' "$(with "$z_and_a" 96 03 132 aaaaaaaa)"

# the last number comes first
for counted in '0 24' '1 96' '5 240' '6 280' '17 696' '35 1368' '36 1408' '112 4264' '215 8160'; do
    read -r count size <<< "$counted"
    begin "a kept map of $count keys, each of which answers"
    { echo "kept $count"; seq $((count - 1)) -1 0 | sed "s/.*/'&\nint &/"; } > text
    run build text a.cab
    prints "built $size\n"
    ends 0 ''
    { seq 0 "$count" | sed "s/.*/get '&/"; echo keys; echo get; } > input
    run run a.cab
    {
        seq -f 'int %.0f' 0 $((count - 1))
        echo missing
        echo "keys $count$(grep "^'" text | sed 's/^/ /' | tr -d '\n')"
        echo "kept $count"
    } > expected
    cmp -s output expected || differs 'other answers'
    ends 0 ''
    is_shown
    finish
done

asks 'questions in kept maps, in lists, options and other maps' "kept 2\n'b\nhashed 1\n'x\nkept 1\n'y\nint 1\n'a\nlist 1\nsome\nkept 0\n" \
    "get\nkeys\nkeys 'b 'x\nget 'b 'x 'y\nget 'a #0 ?\nkeys 'a #0 ?\nkeys 'b\nget 'b 'y\n" \
    "kept 2\nkeys 2 'b 'a\nkeys 1 'y\nint 1\nkept 0\nkeys 0\nwrong\nmissing\n"

begin 'kept maps and options 64 deep'
text "$(printf "some\\\\nkept 1\\\\n'a\\\\n%.0s" {1..32})int 5\n"
run build text a.cab
ends 0 ''
lines "get$(printf " ? 'a%.0s" {1..32})\nset int 6$(printf " ? 'a%.0s" {1..32})\nget$(printf " ? 'a%.0s" {1..32})\n"
run run a.cab
prints 'int 5\nok\nint 6\n'
ends 0 ''
finish

unopened "$(with "$z_and_a" 0 02)" Access 'a number that is that of no entry'
unopened "$(with "$z_and_a" 124 02)" Access 'a kept map with as many pairs as places'
unopened "$(with "$z_and_a" 128 b8)" Access 'entries of a kept map that reach into its node'
unopened "$(with "$z_and_a" 48 fe)" Access 'a key of a kept map that is not UTF-8'
unopened "$(with "$z_and_a" 56 0a)" Access 'a value of a kept map that is none'
unopened "$(with "$z_and_a" 13 12 16 12)" WrongTag 'a control of a kept map that is another tag'
unopened "$(with "$z_and_a" 0 00)" WrongTag 'two places of a kept map that name one entry'
unopened "$(with "$z_and_a" 0 00 4 01)" WrongTag 'two places of a kept map that name each other'"'"'s entries'
unopened "$(with "$z_and_a" 13 55 16 55 48 61)" NotFound 'a key twice in a kept map'

flips 'each bit of a kept map' "$z_and_a" "get\nkeys\nget 'a\nset int 3 'a\nget 'a\n" 771

# ---- the file of an archive is replaced as a whole

begin 'a run replaces the file'
archive "$five"
before=$(stat -c %i a.cab)
lines 'set int 6\n'
run run a.cab
prints 'ok\n'
ends 0 ''
holds a.cab "$six"
[ "$(stat -c %i a.cab)" != "$before" ] || differs 'the old file was written'
leaves a.cab
finish

begin 'a build replaces the file, and reads no input'
archive "$five"
before=$(stat -c %i a.cab)
text 'int 6\n'
lines 'get\nset int 7\n'
{
    "$cab" build text a.cab > output 2> errors
    ended=$?
    cat > rest
} < input
prints 'built 24\n'
ends 0 ''
holds a.cab "$six"
cmp -s rest input || differs 'some of the input was read'
[ "$(stat -c %i a.cab)" != "$before" ] || differs 'the old file was written'
leaves a.cab rest text
finish

begin 'permissions stay'
text 'int 6\n'
(umask 027 && "$cab" build text new.cab < input > output 2> errors)
ended=$?
ends 0 ''
file_is new.cab %a 640
archive "$five"
for mode in 600 664 755; do
    chmod $mode a.cab
    run build text a.cab
    ends 0 ''
    holds a.cab "$six"
    file_is a.cab %a $mode
    lines 'set int 7\n'
    run run a.cab
    ends 0 ''
    holds a.cab "$seven"
    file_is a.cab %a $mode
done
leaves a.cab new.cab text
finish

begin 'the owner and the group stay'
if [ "$(id -u)" = 0 ]; then
    text 'int 6\n'
    archive "$five"
    chmod 640 a.cab
    chown 65534:65533 a.cab
    run build text a.cab
    ends 0 ''
    holds a.cab "$six"
    file_is a.cab '%a %u %g' '640 65534 65533'
    lines 'set int 7\n'
    run run a.cab
    ends 0 ''
    holds a.cab "$seven"
    file_is a.cab '%a %u %g' '640 65534 65533'
    finish
else
    skip 'only root may give a file another owner'
fi

begin 'a link stays, and the file that it leads to is replaced'
mkdir folder
archive "$five"
mv a.cab folder/old.cab
chmod 640 folder/old.cab
ln -s old.cab folder/middle
ln -s folder/middle a.cab
text 'int 6\n'
run build text a.cab
prints 'built 24\n'
ends 0 ''
holds folder/old.cab "$six"
lines 'set int 7\n'
run run a.cab
prints 'ok\n'
ends 0 ''
holds folder/old.cab "$seven"
file_is folder/old.cab '%F %a' 'regular file 640'
[ "$(readlink a.cab) $(readlink folder/middle)" = 'folder/middle old.cab' ] || differs 'a link was replaced'
[ "$(ls -A folder | tr '\n' ' ')" = 'middle old.cab ' ] || differs "the folder has $(ls -A folder)"
leaves a.cab folder text
finish

begin 'a link that leads to no file'
mkdir folder
ln -s folder/new.cab a.cab
text 'int 6\n'
run build text a.cab
prints 'built 24\n'
ends 0 ''
holds folder/new.cab "$six"
[ "$(readlink a.cab)" = folder/new.cab ] || differs 'the link was replaced'
finish

begin 'a pipe is written, and stays one'
mkfifo a.cab
text 'int 6\n'
timeout 10 cat a.cab > got &
run build text a.cab
wait $!
prints 'built 24\n'
ends 0 ''
holds got "$six"
file_is a.cab %F fifo
leaves a.cab got text
finish

begin 'an archive that is a folder'
mkdir a.cab
text 'int 6\n'
run build text a.cab
prints ''
ends 1 'cab: cannot write a.cab\n'
leaves a.cab text
finish

begin 'a name that leaves no room for another'
long=$(printf 'a%.0s' {1..250})
text 'int 6\n'
run build text "$long"
prints 'built 24\n'
ends 0 ''
holds "$long" "$six"
lines 'set int 7\n'
run run "$long"
ends 0 ''
holds "$long" "$seven"
leaves "$long" text
finish

begin 'files beside it are left alone, and after a thousand of them it is a fault'
archive "$five"
text 'int 6\n'
for n in {0..998}; do
    echo "$n" > ".a.cab.cab-$n"
done
run build text a.cab
prints 'built 24\n'
ends 0 ''
holds a.cab "$six"
lacks .a.cab.cab-999
echo 999 > .a.cab.cab-999
text 'int 7\n'
run build text a.cab
prints ''
ends 1 'cab: cannot write a.cab\n'
holds a.cab "$six"
lines 'set int 7\n'
run run a.cab
prints 'ok\n'
ends 1 'cab: cannot write a.cab\n'
holds a.cab "$six"
for n in {0..999}; do
    read -r line < ".a.cab.cab-$n" && [ "$line" = "$n" ] || differs ".a.cab.cab-$n was written"
done
finish

# numbers N: the text of a list of N numbers
numbers() {
    echo "list $1"
    seq 1 "$1" | sed 's/^/int /'
}

# is_fault FORMAT: whether the only fault is one of these, each a basic regular expression
is_fault() {
    [ "$(wc -l < errors)" = 1 ] && grep -qx "cab: \\($1\\)" errors
}

# Below some of these limits the system does not start a program at all.
for limit in 4000 8000 12000 16000 24000 32000 48000 64000 128000; do
    begin "a limit of $limit KiB of memory: a build"
    numbers 100000 > text
    archive "${five}bbbb"
    (ulimit -v $limit && exec "$cab" build text a.cab < input > output 2> errors)
    ended=$?
    if [ $ended = 0 ]; then
        prints 'built 2400024\n'
        ends 0 ''
    else
        [ $ended -gt 1 ] || is_fault 'cannot read text\|text line [0-9]*: OutOfMemory\|save: OutOfMemory\|cannot write a.cab' ||
            differs "its faults were $(cat errors)"
        prints ''
        holds a.cab "${five}bbbb"
    fi
    leaves a.cab text
    finish

    begin "a limit of $limit KiB of memory: a run"
    numbers 100000 > text
    run build text a.cab
    cp a.cab old.cab
    sed -i '50002s/.*/int -1/' text
    run build text new.cab
    lines 'set int -1 #50000\n'
    (ulimit -v $limit && exec "$cab" run a.cab < input > output 2> errors)
    ended=$?
    if [ $ended = 0 ]; then
        prints 'ok\n'
        ends 0 ''
        cmp -s a.cab new.cab || differs 'the edit is not in the file'
    else
        [ $ended -gt 1 ] || is_fault 'cannot read a.cab\|open: OutOfMemory\|run: OutOfMemory after 0 lines\|cannot write a.cab' ||
            differs "its faults were $(cat errors)"
        cmp -s a.cab old.cab || differs 'the archive was written'
    fi
    leaves a.cab new.cab old.cab text
    finish
done

# limited KIB OUTCOME WORD..: runs cab with a limit on the size of each file that it writes. If the outcome is `fails`, a
# write past the limit fails, and else the signal of the limit ends cab.
limited() {
    {
        (
            ulimit -c 0
            [ "$2" != fails ] || trap '' XFSZ
            ulimit -f "$1"
            exec "$cab" "${@:3}" < input > output 2> errors
        )
        ended=$?
    } 2> /dev/null
}

# Archives of 5,000 numbers have 120,024 bytes, which is less than 118 KiB.
for limit in 1 64 117; do
    for outcome in fails 'is killed'; do
        begin "a file-size limit of $limit KiB: a build $outcome"
        numbers 5000 > text
        archive "$five"
        before=$(stat -c '%i %y' a.cab)
        limited $limit "$outcome" build text a.cab
        prints ''
        if [ "$outcome" = fails ]; then
            ends 1 'cab: cannot write a.cab\n'
            leaves a.cab text
        else
            ends $((128 + $(kill -l XFSZ))) ''
            leaves .a.cab.cab-0 a.cab text
        fi
        holds a.cab "$five"
        [ "$(stat -c '%i %y' a.cab)" = "$before" ] || differs 'the old file was written'
        limited 118 fails build text a.cab
        prints 'built 120024\n'
        ends 0 ''
        finish

        begin "a file-size limit of $limit KiB: a run $outcome"
        numbers 5000 > text
        run build text a.cab
        cp a.cab old.cab
        before=$(stat -c '%i %y' a.cab)
        lines 'set int -1 #2500\n'
        limited $limit "$outcome" run a.cab
        if [ "$outcome" = fails ]; then
            ends 1 'cab: cannot write a.cab\n'
            leaves a.cab old.cab text
        else
            ends $((128 + $(kill -l XFSZ))) ''
            leaves .a.cab.cab-0 a.cab old.cab text
        fi
        prints 'ok\n'
        cmp -s a.cab old.cab || differs 'the old archive was written'
        [ "$(stat -c '%i %y' a.cab)" = "$before" ] || differs 'the old file was written'
        limited 118 fails run a.cab
        prints 'ok\n'
        ends 0 ''
        lines 'get #2500\n'
        run run a.cab
        prints 'int -1\n'
        finish
    done
done

begin 'a full file system'
mkdir full
if mount -t tmpfs -o size=160k tmpfs full 2> /dev/null; then
    numbers 5000 > text
    run build text full/a.cab
    ends 0 ''
    cp full/a.cab old.cab
    sed -i '2s/.*/int -1/' text
    run build text full/a.cab
    prints ''
    ends 1 'cab: cannot write full/a.cab\n'
    cmp -s full/a.cab old.cab || differs 'a build wrote the old archive'
    lines 'set int -1 #2500\n'
    run run full/a.cab
    prints 'ok\n'
    ends 1 'cab: cannot write full/a.cab\n'
    cmp -s full/a.cab old.cab || differs 'a run wrote the old archive'
    [ "$(ls -A full)" = a.cab ] || differs "the folder has $(ls -A full)"
    text 'int 5\n'
    run build text full/a.cab
    prints 'built 24\n'
    ends 0 ''
    holds full/a.cab "$five"
    umount full
    finish
else
    skip 'no file system may be mounted here'
fi

# The command that runs cab for a user whom permissions bind, or nothing where this user is one.
user=()
if [ "$(id -u)" = 0 ]; then
    user=(setpriv --reuid=65534 --regid=65534 --clear-groups)
    chmod 755 "$work" "$work/files"
fi

# runs cab with the given words as that user
run_as_user() {
    "${user[@]}" "$cab" "$@" < input > output 2> errors
    ended=$?
}

if [ ${#user[@]} -gt 0 ] && ! "${user[@]}" test -x "$cab" 2> /dev/null; then
    begin 'archives in folders of another user'
    skip 'no command runs cab as another user'
else
    begin 'a folder that takes no new file: an archive that may be written is written as it lies'
    mkdir folder
    archive "$five"
    mv a.cab folder
    chmod 666 folder/a.cab
    chmod 555 folder
    before=$(stat -c '%i %a %u' folder/a.cab)
    text 'int 6\n'
    chmod 644 text
    run_as_user build text folder/a.cab
    prints 'built 24\n'
    ends 0 ''
    holds folder/a.cab "$six"
    lines 'set int 7\n'
    run_as_user run folder/a.cab
    prints 'ok\n'
    ends 0 ''
    holds folder/a.cab "$seven"
    file_is folder/a.cab '%i %a %u' "$before"
    chmod 444 folder/a.cab
    run_as_user build text folder/a.cab
    prints ''
    ends 1 'cab: cannot write folder/a.cab\n'
    run_as_user build text folder/new.cab
    ends 1 'cab: cannot write folder/new.cab\n'
    lines 'set int 6\n'
    run_as_user run folder/a.cab
    prints 'ok\n'
    ends 1 'cab: cannot write folder/a.cab\n'
    holds folder/a.cab "$seven"
    [ "$(ls -A folder)" = a.cab ] || differs "the folder has $(ls -A folder)"
    chmod 755 folder
    finish

    begin 'an archive that may not be written is not replaced'
    mkdir folder
    archive "$five"
    mv a.cab folder
    chmod 444 folder/a.cab
    [ ${#user[@]} -eq 0 ] || chown 65534:65534 folder/a.cab
    chmod 777 folder
    text 'int 6\n'
    chmod 644 text
    before=$(stat -c '%i %a %u %y' folder/a.cab)
    run_as_user build text folder/a.cab
    prints ''
    ends 1 'cab: cannot write folder/a.cab\n'
    lines 'set int 6\n'
    run_as_user run folder/a.cab
    prints 'ok\n'
    ends 1 'cab: cannot write folder/a.cab\n'
    holds folder/a.cab "$five"
    file_is folder/a.cab '%i %a %u %y' "$before"
    [ "$(ls -A folder)" = a.cab ] || differs "the folder has $(ls -A folder)"
    finish
fi

if [ ${#user[@]} -gt 0 ] && "${user[@]}" test -x "$cab" 2> /dev/null; then
    begin "another user's archive keeps its owner"
    mkdir folder
    archive "$five"
    mv a.cab folder
    chmod 666 folder/a.cab
    for mode in 777 1777; do
        chmod $mode folder
        before=$(stat -c '%i %a %u %g' folder/a.cab)
        lines 'set int 6\n'
        run_as_user run folder/a.cab
        prints 'ok\n'
        ends 0 ''
        holds folder/a.cab "$six"
        file_is folder/a.cab '%i %a %u %g' "$before"
        [ "$(ls -A folder)" = a.cab ] || differs "the folder has $(ls -A folder)"
    done
    finish
fi

begin 'of two runs at once the later one is refused'
archive "$five"
{ many_gets; echo 'set int 7' | "$cab" run a.cab > other 2>&1; echo 'set int 6'; } | "$cab" run a.cab > output 2> errors
ended=$?
prints_many 'ok\n'
ends 1 'cab: cannot write a.cab\n'
holds a.cab "$seven"
[ "$(cat other)" = ok ] || differs "the earlier one printed $(head -c 200 other)"
leaves a.cab other
finish

begin 'a run on an archive that is built anew meanwhile is refused'
archive "$five"
text 'int 7\n'
{ many_gets; "$cab" build text a.cab > other 2>&1; echo 'set int 6'; } | "$cab" run a.cab > output 2> errors
ended=$?
prints_many 'ok\n'
ends 1 'cab: cannot write a.cab\n'
holds a.cab "$seven"
leaves a.cab other text
finish

begin 'a run on a file that is written meanwhile is refused'
archive "$seven"
mv a.cab other.cab
archive "$five"
touch -d '2001-02-03 04:05:06' a.cab
{ many_gets; cat other.cab > a.cab; echo 'set int 6'; } | "$cab" run a.cab > output 2> errors
ended=$?
prints_many 'ok\n'
ends 1 'cab: cannot write a.cab\n'
holds a.cab "$seven"
leaves a.cab other.cab
finish

begin 'questions alone are not refused then'
archive "$five"
{ many_gets; echo 'set int 7' | "$cab" run a.cab > other 2>&1; echo get; } | "$cab" run a.cab > output 2> errors
ended=$?
prints_many 'int 5\n'
ends 0 ''
holds a.cab "$seven"
leaves a.cab other
finish

if command -v flock > /dev/null; then
    begin 'a run on a file that another program has locked is refused'
    archive "$five"
    lines 'set int 6\n'
    flock a.cab "$cab" run a.cab < input > output 2> errors
    ended=$?
    prints 'ok\n'
    ends 1 'cab: cannot write a.cab\n'
    holds a.cab "$five"
    leaves a.cab
    finish
fi

# killed_at_random WORD..: twenty times runs cab on a copy of old.cab, and kills it at a random moment. Each time the copy
# then has the bytes of old.cab or of new.cab. The milliseconds of a run that is not killed are in $took.
killed_at_random() {
    local after old=0 new=0
    for _ in {1..20}; do
        cp old.cab a.cab
        "$cab" "$@" < input > output 2> errors &
        after=$((RANDOM % (took + took / 5 + 2)))
        sleep "$((after / 1000)).$(printf %03d $((after % 1000)))"
        {
            kill -KILL $!
            wait $!
        } 2> /dev/null
        if cmp -s a.cab old.cab; then
            old=$((old + 1))
        elif cmp -s a.cab new.cab; then
            new=$((new + 1))
        else
            differs "after $after ms a.cab was neither old nor new"
        fi
    done
    rm -f .a.cab.cab-*
    ! ls -A | grep -q '^\.' || differs "the folder has $(ls -A)"
    name="$name ($old times it was the old one, $new times the new one)"
}

# milliseconds WORD..: how long cab takes
milliseconds() {
    local begun
    begun=$(date +%s%N)
    run "$@"
    took=$((($(date +%s%N) - begun) / 1000000))
}

begin 'after a killed build the archive is the old or the new one'
numbers 60000 | sed '2s/.*/int -1/' > text
milliseconds build text new.cab
ends 0 ''
numbers 60000 > other
run build other old.cab
ends 0 ''
killed_at_random build text a.cab
run build text a.cab
ends 0 ''
cmp -s a.cab new.cab || differs 'the archive is not built after all'
finish

begin 'after a killed run the archive is the old or the new one'
numbers 60000 > text
run build text old.cab
ends 0 ''
seq 0 19999 | sed 's/.*/set int -1 #&/' > input
cp old.cab new.cab
milliseconds run new.cab
ends 0 ''
killed_at_random run a.cab
cp old.cab a.cab
run run a.cab
ends 0 ''
cmp -s a.cab new.cab || differs 'the archive is not edited after all'
finish

# ---- cab_show

# shows TEXT: the archive of a text is shown as the text
shows() {
    begin "shown: ${1:0:60}"
    text "$1\n"
    run build text a.cab
    cp a.cab before.cab
    show a.cab
    prints "$1\n"
    ends 0 ''
    cmp -s a.cab before.cab || differs 'a.cab was written'
    leaves a.cab before.cab text
    finish
}

shows 'bool true'
shows 'int -9223372036854775808'
shows "text '"
shows "text 'hello\\sworld!"
shows "shared '"
shows "shared 'hello\\sworld!"
shows none
shows 'some\nnone'
shows 'list 0'
shows "list 2\nshared '\nshared '"
shows 'list 3\nbool false\nlist 1\nint 7\nint 19'
shows "list 3\nshared 'a\nlist 2\nint 7\nint 19\nshared 'a"
shows 'ordered 0'
shows "ordered 7\n'\nint 1\n'a\nint 2\n'aa\nint 3\n'b\nint 4\n'c\nint 5\n'd\nint 6\n'e\nint 7"
shows 'hashed 0'
shows "hashed 7\n'\nint 1\n'a\nint 2\n'aa\nint 3\n'b\nint 4\n'c\nint 5\n'd\nint 6\n'e\nint 7"
shows 'kept 0'
shows "kept 2\n'z\nint 1\n'a\nint 2"
shows "kept 7\n'd\nint 1\n'\nint 2\n'aa\nint 3\n'c\nint 4\n'e\nint 5\n'a\nint 6\n'b\nint 7"
shows 'wholes 1\nint 5\nwhole 0'
shows 'wholes 1\nint 5\nlist 2\nwhole 0\nwhole 0'
shows 'wholes 2\nint 1\nlist 2\nwhole 0\nwhole 0\nlist 3\nwhole 1\nwhole 0\nwhole 1'
shows "wholes 1\nint 5\nlist 3\n$maps"
# numbered by the keys, of which the second has the lower place
shows "wholes 2\nint 1\nint 2\nhashed 2\n'a\nwhole 0\n'b\nwhole 1"
shows "wholes 2\nkept 1\n'a\nshared 'b\nordered 1\n'c\nwhole 0\nkept 2\n'z\nsome\nwhole 1\n'a\nwhole 0"
# wholes that differ in their shared texts alone, and in the order of these
shows "wholes 2\nlist 1\nshared 'a\nlist 1\nshared 'b\nlist 3\nwhole 0\nwhole 1\nwhole 0"
shows "wholes 2\nlist 2\nshared 'a\nshared 'b\nlist 2\nshared 'b\nshared 'a\nlist 2\nwhole 0\nwhole 1"
shows "list 3\nshared 'a\nsome\nshared 'b\nordered 2\n'k\nshared 'a\n'l\nhashed 1\n'm\nshared 'b"
shows "ordered 1\n'k\nsome\nlist 1\nhashed 1\n'l\nshared '"
shows "list 2\nkept 2\n'b\nhashed 1\n'x\nkept 1\n'y\nshared 'c\n'a\ntext 'c\nsome\nkept 0"

for container in some 'list 1' "ordered 1\\\\n'a" "hashed 1\\\\n'a" "kept 1\\\\n'a"; do
    begin "64 containers in one another are shown with a stack of 1 MiB: $container"
    text "$(printf "$container\\\\n%.0s" {1..64})int 5\n"
    run build text a.cab
    (ulimit -s 1024 && "$show" a.cab < input > output 2> errors)
    ended=$?
    cmp -s output text || differs 'the text is another'
    ends 0 ''
    finish
done

# the text is 40 MB, of which the document has the shared text once
begin 'a shared text that 2,000 wholes have is loaded once'
awk 'BEGIN {
    text = "tttttttttt"
    while (length(text) < 20000)
        text = text (2 * length(text) > 20000 ? substr(text, 1, 20000 - length(text)) : text)
    print "wholes 2000"
    for (i = 0; i < 2000; i++)
        print "list 2\nshared \x27" text "\nint " i
    print "list 2000"
    for (i = 0; i < 2000; i++)
        print "whole " i
}' > text
run build text a.cab
prints 'built 212024\n'
(ulimit -v 30000 && "$show" a.cab < input > output 2> errors)
ended=$?
cmp -s output text || differs 'the text is another'
ends 0 ''
finish

begin 'an archive that is edited and shown is built again'
text "hashed 2\n'a\ntext 'world\n'b\nlist 2\nint 7\nint 19\n"
run build text a.cab
lines "set text 'WORLD 'a\nset int 20 'b #1\n"
run run a.cab
prints 'ok\nok\n'
: > input
show a.cab
prints "hashed 2\n'a\ntext 'WORLD\n'b\nlist 2\nint 7\nint 20\n"
ends 0 ''
cp output text
run build text again.cab
cmp -s a.cab again.cab || differs 'the archive is another'
finish

# a shared text at two positions, and bytes that no field has
for bytes in "${twice:0:24}2e2e2e2e${twice:32}" \
    "${twice:0:32}${twice:0:32}03000000dcffffff0c00000000000000000000000000000003000000d4ffffff0c00000000000000000000000000000005000000ccffffff02000000000000000000000000000000"; do
    begin 'an archive that is no image is shown, and built again as its image'
    archive "$bytes"
    show a.cab
    prints "list 2\nshared 'hello\\sworld!\nshared 'hello\\sworld!\n"
    ends 0 ''
    cp output text
    run build text again.cab
    holds again.cab "$twice"
    holds a.cab "$bytes"
    finish
done

# images HEX TEXT: an archive that is no image, which is shown as a text, and that text's archive is another one
images() {
    begin "no image, and shown: $2"
    archive "$1"
    show a.cab
    prints "$2\n"
    ends 0 ''
    cp output text
    run build text again.cab
    ! cmp -s a.cab again.cab || differs 'the archive is an image'
    show again.cab
    prints "$2\n"
    ends 0 ''
    holds a.cab "$1"
    finish
}

images "$empty_leaf" "ordered 5\n'a\nint 1\n'b\nint 2\n'c\nint 3\n'd\nint 4\n'e\nint 5"
images "$(with "$coffee" 188 aaaaaaaaaaaaaaaaaaaaaaaa)bbbbbbbbbbbbbb" "ordered 2\n'coffee\nint 300\n'tea\nint 250"
images "$found" "hashed 1\n'a\nint 1"
# equal wholes apart, with one shared text
images "610000000000000003000000f4ffffff01000000$(zeros 12)03000000dcffffff01000000$(zeros 12)09000000ccffffff$(zeros 16)09000000ccffffff$(zeros 16)05000000ccffffff02000000$(zeros 12)" \
    "wholes 1\nshared 'a\nlist 2\nwhole 0\nwhole 0"
images "$(with "$z_and_a" 132 aaaaaaaa)" "kept 2\n'z\nint 1\n'a\nint 2"

begin 'shown: equal wholes apart, as one'
archive "$five$five$again$again$two"
show a.cab
prints 'wholes 1\nint 5\nlist 2\nwhole 0\nwhole 0\n'
ends 0 ''
holds a.cab "$five$five$again$again$two"
finish

# unshown NAME HEX CAUSE: bytes that are no archive
unshown() {
    begin "not shown: $1"
    archive "$2"
    show a.cab
    prints ''
    ends 1 "cab: open: $3\n"
    holds a.cab "$2"
    leaves a.cab
    finish
}

unshown 'no bytes' '' Access
unshown 'a tag that is none' "${five/01/0a}" Access
unshown '65 options' "$five$(printf "$some%.0s" {1..65})" TooDeep

begin 'an archive that is not there is not shown'
show a.cab
prints ''
ends 1 'cab: cannot read a.cab\n'
leaves
finish

for output in /dev/full closed; do
    begin "the text is not printed: $output"
    archive "$five"
    if [ $output = closed ]; then
        "$show" a.cab < input >&- 2> errors
    else
        "$show" a.cab < input > $output 2> errors
    fi
    ended=$?
    ends 1 'cab: cannot write -\n'
    holds a.cab "$five"
    finish
done

begin 'memory is refused for a document that is shown'
yes none | head -n 1000000 | sed '1i list 1000000' > text
run build text a.cab
(ulimit -v 45000 && "$show" a.cab < input > output 2> errors)
ended=$?
prints ''
ends 1 'cab: open: OutOfMemory\n'
finish

for words in '' 'a.cab more' 'show a.cab'; do
    begin "other words of cab_show: $words"
    archive "$five"
    show $words
    prints ''
    ends 2 "$show_usage"
    finish
done

# ---- cab_show --map

. "$root/tests/maps.sh"

# ---- cab_edit

misused_edit
misused_edit a.cab more
misused_edit --new list
misused_edit --new a.cab
misused_edit --new tree a.cab
misused_edit --new list a.cab more
misused_edit --NEW list a.cab
misused_edit --new LIST a.cab
misused_edit --new '' a.cab
misused_edit new list a.cab
misused_edit $'\xff.cab'
misused_edit --new $'\xff' a.cab

three_puts="put int 2 'b\nput int 1 'a\nput int 3 'c\nkeys\n"
makes 'an ordered map' ordered "$three_puts" "ok\nok\nok\nkeys 3 'a 'b 'c\n" "ordered 3\n'a\nint 1\n'b\nint 2\n'c\nint 3"
makes 'a kept map' kept "$three_puts" "ok\nok\nok\nkeys 3 'b 'a 'c\n" "kept 3\n'b\nint 2\n'a\nint 1\n'c\nint 3"
makes 'a hashed map' hashed "$three_puts" 'ok\nok\nok\nwrong\n' "hashed 3\n'a\nint 1\n'b\nint 2\n'c\nint 3"
makes 'a list' list 'insert int 7 #0\nput int 19 #1\ninsert int 5 #0\nget\n' 'ok\nok\nok\nlist 3\n' 'list 3\nint 5\nint 7\nint 19'
makes 'an option' none 'put int 5 ?\nget\nget ?\n' 'ok\nsome\nint 5\n' 'some\nint 5'
makes 'a leaf in the place of the root' list 'put int 5\nget\n' 'ok\nint 5\n' 'int 5'
makes 'containers in one another' ordered \
    "put list 0 'a\ninsert kept 0 'a #0\nput none 'a #0 'k\nput shared 't 'a #0 'k ?\ninsert text 'long\\\\sand\\\\sshared 'a #1\nput hashed 0 'b\nget 'a\n" \
    'ok\nok\nok\nok\nok\nok\nlist 2\n' "ordered 2\n'a\nlist 2\nkept 1\n'k\nsome\nshared 't\ntext 'long\\\\sand\\\\sshared\n'b\nhashed 0"
makes 'the settings, line by line' ordered \
    "put none 'backup\nput ordered 0 'backup ?\nput text '/srv/backup 'backup ? 'folder\nput list 0 'backup ? 'hours\nput int 18 'backup ? 'hours #0\ninsert int 6 'backup ? 'hours #0\nput ordered 0 'window\nput int 1280 'window 'width\nput bool false 'window 'maximized\nput int 800 'window 'height\nput none 'proxy\nput text 'en-GB 'language\n" \
    "$(printf 'ok\\n%.0s' {1..12})" "$(sed ':all; N; $! b all; s/\n/\\n/g' "$root/examples/settings/text")"
for kind in list ordered hashed kept; do
    makes "no lines: $kind" $kind '' '' "$kind 0"
done
makes 'no lines: none' none '' '' none
makes 'questions alone' list 'get\nget #0\n' 'list 0\nmissing\n' 'list 0'

edits 'a list grows at its end' 'list 2\nint 7\nint 19' 'insert int 5 #2\nput int 6 #3\nget\nput int 1 #5\ninsert int 1 #5\n' \
    'ok\nok\nlist 4\nmissing\nmissing\n' 'list 4\nint 7\nint 19\nint 5\nint 6'
edits 'elements move back' 'list 2\nint 7\nint 19' 'insert int 5 #0\nget #1\ninsert int 6 #2\nget #3\n' 'ok\nint 7\nok\nint 19\n' \
    'list 4\nint 5\nint 7\nint 6\nint 19'
edits 'an element is replaced' 'list 2\nint 7\nint 19' "put text 'a #0\nput list 0 #1\nput none #1 #0\n" 'ok\nok\nok\n' "list 2\ntext 'a\nlist 1\nnone"
edits 'an element is removed' 'list 3\nint 7\nint 19\nint 5' 'remove #1\nget #1\nremove #2\n' 'ok\nint 5\nmissing\n' 'list 2\nint 7\nint 5'
for kind in ordered hashed kept; do
    edits "a key is removed: $kind" "$kind 2\n'a\nint 1\n'b\nint 2" "remove 'a\nremove 'a\nget 'a\nget 'b\n" 'ok\nmissing\nmissing\nint 2\n' "$kind 1\n'b\nint 2"
    edits "a key is replaced: $kind" "$kind 2\n'a\nint 1\n'b\nint 2" "put text 'longer\\\\sthan\\\\sa\\\\snode 'a\nget 'a\n" \
        "ok\ntext 'longer\\\\sthan\\\\sa\\\\snode\n" "$kind 2\n'a\ntext 'longer\\\\sthan\\\\sa\\\\snode\n'b\nint 2"
done
edits 'a removed key is put at the end of a kept map' "kept 2\n'b\nint 1\n'a\nint 2" "remove 'b\nput int 3 'b\nkeys\n" "ok\nok\nkeys 2 'a 'b\n" \
    "kept 2\n'a\nint 2\n'b\nint 3"
edits "an option's content is removed" 'some\nint 5' 'remove ?\nget\nremove ?\n' 'ok\nnone\nmissing\n' none
edits 'a longer text' "list 1\ntext 'abc" "put text 'abcdefghijklm #0\nget #0\nset text 'x #0\nset text 'ABCDEFGHIJKLM #0\n" \
    "ok\ntext 'abcdefghijklm\nrefused\nok\n" "list 1\ntext 'ABCDEFGHIJKLM"
edits 'equal shared texts, which are one in the archive' 'list 0' "insert shared 'hello\\\\sworld! #0\ninsert shared 'hello\\\\sworld! #1\nget #1\n" \
    "ok\nok\nshared 'hello\\\\sworld!\n" "list 2\nshared 'hello\\\\sworld!\nshared 'hello\\\\sworld!"
edits 'the root is replaced' 'list 1\nint 7' "put int 5\nput ordered 0\nput none 'a\nget\n" 'ok\nok\nok\nordered 1\n' "ordered 1\n'a\nnone"
edits 'a leaf is set' 'int 5' 'set int 6\nget' 'ok\nint 6\n' 'int 6'
edits 'an edit to the value that is there' 'int 5' 'put int 5\n' 'ok\n' 'int 5'
edits 'lines that are none' "ordered 1\n'a\nint 1" "put\nput list 1 'a\nremove  'a\nput int 05 'a\nput some 'a\nput whole 0 'a\ninsert\nremoved\n\nput int 5\n" \
    'bad\nbad\nbad\nbad\nbad\nbad\nbad\nbad\nbad\nok\n' 'int 5'
edits 'beside a whole' 'wholes 1\nint 5\nlist 2\nwhole 0\nwhole 0' 'put int 6 #0 ?\nremove #0 ?\nput int 6 #0\nremove #0\nput int 7 #2\ninsert int 8 #0\nget #1\n' \
    'refused\nrefused\nrefused\nrefused\nok\nok\nwhole\n' 'wholes 1\nint 5\nlist 4\nint 8\nwhole 0\nwhole 0\nint 7'
edits 'the last option of 64' "$(printf 'some\\n%.0s' {1..63})none" "put int 6$(printf ' ?%.0s' {1..64})\nput list 0$(printf ' ?%.0s' {1..64})\n" 'ok\nrefused\n' \
    "$(printf 'some\\n%.0s' {1..64})int 6"

keeps 'no input' 'int 5' '' ''
keeps 'questions alone' "ordered 2\n'a\nint 1\n'b\nint 2" "get\nkeys\nrange 'b 'c\nget 'c\nget #0\n" "ordered 2\nkeys 2 'a 'b\nkeys 1 'b\nmissing\nmissing\n"
keeps 'the root stays' 'list 1\nint 7' 'remove\ninsert int 5\nget\n' 'refused\nmissing\nlist 1\n'
keeps 'a root with a whole in it is not replaced' 'wholes 1\nint 5\nlist 1\nwhole 0' 'put int 6\nput list 0\n' 'refused\nrefused\n'
keeps 'a node with a whole in it is neither replaced nor removed' "wholes 1\nint 5\nordered 1\n'a\nlist 1\nwhole 0" "put int 6 'a\nremove 'a\n" 'refused\nrefused\n'
keeps '65 containers' "$(printf 'some\\n%.0s' {1..64})int 5" "put none$(printf ' ?%.0s' {1..64})\nget$(printf ' ?%.0s' {1..64})\n" 'refused\nint 5\n'
keeps 'steps that lead to nothing' "list 1\nint 5" "put int 1 'a\nput int 1 ?\nput int 1 #0 #0\nput int 1 #2\nremove 'a\nremove #1\ninsert int 1 'a\ninsert int 1 #0 #0\ninsert int 1 #2\n" \
    'missing\nmissing\nmissing\nmissing\nmissing\nmissing\nmissing\nmissing\nmissing\n'
keeps 'leaves of other kinds are not set' 'list 2\nint 5\nnone' "set bool true #0\nset int 5 #1\nset int 5 ?\n" 'refused\nrefused\nmissing\n'

begin 'the bytes behind an archive stay until it is edited'
archive "${five}bbbbbbbbbbbbbb"
lines 'get\n'
edit a.cab
prints 'int 5\n'
ends 0 ''
holds a.cab "${five}bbbbbbbbbbbbbb"
lines 'put int 6\n'
edit a.cab
prints 'ok\n'
ends 0 ''
holds a.cab "$six"
leaves a.cab
finish

begin 'an archive of equal wholes apart has them as one after an edit'
archive "$five$five$again$again$two"
lines 'insert int 7 #2\n'
edit a.cab
prints 'ok\n'
ends 0 ''
is_built 'wholes 1\nint 5\nlist 3\nwhole 0\nwhole 0\nint 7'
finish

begin 'a document that grows by 3,000 lines, and is emptied by as many'
numbers=$(seq 0 2999)
sed "s/.*/put int & 'key&/" <<< "$numbers" > input
edit --new hashed a.cab
yes ok | head -n 3000 | cmp -s - output || differs 'the answers are others'
ends 0 ''
{ echo 'hashed 3000'; sed "s/.*/'key&\nint &/" <<< "$numbers" | paste - - | LC_ALL=C sort -t "$(printf '\t')" -k 1,1 | tr '\t' '\n'; } > wanted
show a.cab
cmp -s output wanted || differs 'another text is shown'
run build wanted built.cab
cmp -s a.cab built.cab || differs 'the archive has other bytes'
sed "s/.*/remove 'key&/" <<< "$numbers" > input
edit a.cab
yes ok | head -n 3000 | cmp -s - output || differs 'the answers are others'
ends 0 ''
rm built.cab wanted
is_built 'hashed 0'
finish

for bytes in '' "${five/01/0a}" 02000000fe6f726c64ffffff000000000000000000000000; do
    begin "no archive is edited: ${bytes:-no bytes}"
    archive "$bytes"
    lines 'get\nput int 6\n'
    edit a.cab
    prints ''
    ends 1 'cab: open: Access\n'
    holds a.cab "$bytes"
    leaves a.cab
    finish
done

begin 'an archive that is not there is not edited'
lines 'put int 6\n'
edit a.cab
prints ''
ends 1 'cab: cannot read a.cab\n'
leaves
finish

begin 'cab_edit: the longest line, and one that is too long'
archive "$five"
{ echo 'put int 6'; long_line 1048576; long_line 1048577; echo 'put int 7'; } > input
edit a.cab
prints 'ok\nbad\n'
ends 1 'cab: run: LineTooLong after 2 lines\n'
holds a.cab "$six"
leaves a.cab
finish

begin 'a new archive is written after a line that is too long'
{ echo 'insert int 7 #0'; long_line 1048577; } > input
edit --new list a.cab
prints 'ok\n'
ends 1 'cab: run: LineTooLong after 1 lines\n'
is_built 'list 1\nint 7'
finish

for output in /dev/full closed; do
    begin "cab_edit: answers are not written: $output"
    archive "$five"
    lines 'put int 6\n'
    if [ $output = closed ]; then
        "$cab_edit" a.cab < input >&- 2> errors
    else
        "$cab_edit" a.cab < input > $output 2> errors
    fi
    ended=$?
    ends 1 'cab: run: Write after 1 lines\n'
    holds a.cab "$six"
    finish
done

begin 'cab_edit: the standard input is closed'
archive "$five"
"$cab_edit" a.cab <&- > output 2> errors
ended=$?
prints ''
ends 1 'cab: run: Read after 0 lines\n'
holds a.cab "$five"
leaves a.cab
finish

begin 'an edited file that goes away before it is written'
archive "$five"
{ many_gets; rm a.cab; echo 'put int 6'; } | "$cab_edit" a.cab > output 2> errors
ended=$?
prints_many 'ok\n'
ends 1 'cab: cannot write a.cab\n'
leaves
finish

begin 'of the faults of an edit the first is told'
archive "$five"
{ many_gets; rm a.cab; echo 'put int 6'; long_line 1048577; } | "$cab_edit" a.cab > output 2> errors
ended=$?
prints_many 'ok\n'
ends 1 'cab: run: LineTooLong after 100001 lines\n'
lacks a.cab
finish

begin 'an edit of a file that is edited meanwhile is refused'
archive "$five"
{ many_gets; echo 'put int 7' | "$cab_edit" a.cab > other 2>&1; echo 'put int 6'; } | "$cab_edit" a.cab > output 2> errors
ended=$?
prints_many 'ok\n'
ends 1 'cab: cannot write a.cab\n'
holds a.cab "$seven"
[ "$(cat other)" = ok ] || differs "the earlier one printed $(head -c 200 other)"
leaves a.cab other
finish

begin 'questions of cab_edit are not refused then'
archive "$five"
{ many_gets; echo 'put int 7' | "$cab_edit" a.cab > other 2>&1; echo get; } | "$cab_edit" a.cab > output 2> errors
ended=$?
prints_many 'int 5\n'
ends 0 ''
holds a.cab "$seven"
leaves a.cab other
finish

if command -v flock > /dev/null; then
    begin 'an edit of a file that another program has locked is refused'
    archive "$five"
    lines 'put int 6\n'
    flock a.cab "$cab_edit" a.cab < input > output 2> errors
    ended=$?
    prints 'ok\n'
    ends 1 'cab: cannot write a.cab\n'
    holds a.cab "$five"
    leaves a.cab
    finish
fi

begin 'an edited file keeps its permissions, and a link to it stays'
mkdir folder
archive "$five"
mv a.cab folder/old.cab
chmod 640 folder/old.cab
ln -s folder/old.cab a.cab
lines 'put list 0\ninsert int 7 #0\n'
edit a.cab
prints 'ok\nok\n'
ends 0 ''
file_is folder/old.cab %a 640
[ "$(readlink a.cab)" = folder/old.cab ] || differs 'the link was replaced'
[ "$(ls -A folder)" = old.cab ] || differs "the folder has $(ls -A folder)"
show a.cab
prints 'list 1\nint 7\n'
ends 0 ''
finish

if [ ${#user[@]} -gt 0 ] && ! "${user[@]}" test -x "$cab_edit" 2> /dev/null; then
    begin 'edited archives in folders of another user'
    skip 'no command runs cab_edit as another user'
else
    begin 'a folder that takes no new file: an edited archive is written as it lies, and gets its new length'
    mkdir folder
    archive "$five"
    mv a.cab folder
    chmod 666 folder/a.cab
    chmod 555 folder
    before=$(stat -c '%i %a %u' folder/a.cab)
    for row in 'put list 0|list 0' 'insert int 7 #0|list 1\nint 7' "insert text 'longer\\\\sthan\\\\sa\\\\snode #1|list 2\nint 7\ntext 'longer\\\\sthan\\\\sa\\\\snode" \
        'remove #1|list 1\nint 7' 'put int 5|int 5'; do
        lines "${row%%|*}\n"
        "${user[@]}" "$cab_edit" folder/a.cab < input > output 2> errors
        ended=$?
        prints 'ok\n'
        ends 0 ''
        text "${row#*|}\n"
        run build text built.cab
        cmp -s folder/a.cab built.cab || differs "the archive has other bytes after ${row%%|*}"
    done
    file_is folder/a.cab '%i %a %u' "$before"
    [ "$(ls -A folder)" = a.cab ] || differs "the folder has $(ls -A folder)"
    : > input
    "${user[@]}" "$cab_edit" --new list folder/new.cab < input > output 2> errors
    ended=$?
    prints ''
    ends 1 'cab: cannot write folder/new.cab\n'
    chmod 444 folder/a.cab
    lines 'put list 0\n'
    "${user[@]}" "$cab_edit" folder/a.cab < input > output 2> errors
    ended=$?
    prints 'ok\n'
    ends 1 'cab: cannot write folder/a.cab\n'
    holds folder/a.cab "$five"
    [ "$(ls -A folder)" = a.cab ] || differs "the folder has $(ls -A folder)"
    chmod 755 folder
    finish
fi

begin 'a new archive has the permissions of one that is built'
text 'list 0\n'
run build text built.cab
edit --new list a.cab
ends 0 ''
file_is a.cab %a "$(stat -c %a built.cab)"
is_built 'list 0'
finish

begin 'no new archive where a file is'
archive "$six"
touch -d '2001-02-03 04:05:06' a.cab
before=$(stat -c '%i %y' a.cab)
not_new a.cab
file_is a.cab '%i %y' "$before"
holds a.cab "$six"
leaves a.cab
finish

begin 'no new archive where a folder or a link is, or in no folder'
mkdir folder
not_new folder
ln -s nothing link
not_new link
[ "$(readlink link)" = nothing ] || differs 'the link was replaced'
archive "$five"
not_new a.cab/new.cab
leaves a.cab folder link
lines ''
edit --new list no-folder/a.cab
prints ''
ends 1 'cab: cannot write no-folder/a.cab\n'
leaves a.cab folder link
finish

begin 'no new archive over a file that comes to be meanwhile'
{ many_gets; echo other > a.cab; echo 'insert int 7 #0'; } | "$cab_edit" --new list a.cab > output 2> errors
ended=$?
{ yes 'list 0' | head -n 100000; echo ok; } | cmp -s - output || differs 'it printed something else'
ends 1 'cab: cannot write a.cab\n'
[ "$(cat a.cab)" = other ] || differs 'the file was written'
leaves a.cab
finish

# ---- the examples

for lines in "$root"/examples/*/lines; do
    example=$(dirname "$lines")
    begin "the example $(basename "$example")"
    run build "$example/text" a.cab
    ends 0 ''
    show a.cab
    cmp -s output "$example/text" || differs 'another text is shown'
    cp "$example/lines" input
    run run a.cab
    cmp -s output "$example/answers" || differs 'the answers are others'
    ends 0 ''
    finish
done

echo "$passed passed, $failed failed"
[ "$failed" -eq 0 ]
