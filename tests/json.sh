#!/usr/bin/env bash
# Turns JSON into archives and archives into JSON, by the filters of examples/json and by cab and cab_show: the programs
# whose paths are given, or else those of crates/cab and crates/cab_show. Each case compares the texts, the JSON and the
# faults with what is written here. Without jq nothing is run.
# Usage: tests/json.sh [CAB CAB_SHOW]
needs=jq
. "$(dirname "$0")/steps.sh"
filters=$root/examples/json

# ---- the steps of a case

# filter WORD..: runs jq, with at most 30 seconds of processor time
filter() {
    (ulimit -t 30 && exec jq "$@") > output 2> errors
    ended=$?
}

# runs to_text.jq on the file json, with the given words
to_text() {
    filter -rn "$@" -f "$filters/to_text.jq" json
}

# runs to_json.jq on the file text
to_json() {
    filter -jn --rawfile text text -f "$filters/to_json.jq"
}

# archives the file text, which is then the text that is shown
archived() {
    run build text a.cab
    ends 0 ''
    show a.cab
    cmp -s output text || differs 'another text is shown'
    ends 0 ''
}

# is_line LINE: what was written to the standard output
is_line() {
    printf '%s\n' "$1" | cmp -s - output || differs "it printed $(head -c 200 output | tr '\n' '|')"
}

# turns the file json into the text that the file text has
to_this_text() {
    to_text
    cmp -s output text || differs "it printed $(head -c 200 output)"
    ends 0 ''
}

# turns the file text into the JSON that the file json has, maybe with other escapes
to_this_json() {
    to_json
    jq -c . output > values
    jq -c . json | cmp -s - values || differs "it printed $(head -c 200 output)"
    ends 0 ''
}

# ---- the cases that differ in their documents alone

# both KIND JSON TEXT JSON: the text of a JSON document whose objects are maps of a kind, and the JSON of its archive
both() {
    begin "from JSON and back, $1: ${2:0:60}"
    printf '%s\n' "$2" > json
    to_text --arg maps "$1"
    prints "$3\n"
    ends 0 ''
    mv output text
    archived
    to_json
    is_line "$4"
    ends 0 ''
    finish
}

# same JSON TEXT: the text of a JSON document, and the same JSON of its archive
same() {
    both kept "$1" "$2" "$1"
}

# shown TEXT JSON: the JSON of the archive of a text
shown() {
    begin "the JSON of: ${1:0:60}"
    text "$1\n"
    archived
    to_json
    is_line "$2"
    ends 0 ''
    finish
}

# unfit JSON FAULT: a JSON document that has no text
unfit() {
    begin "no text of: ${1:0:60}"
    printf '%s\n' "$1" > json
    to_text
    prints ''
    ends 1 "to_text: $2\n"
    finish
}

# unread TEXT FAULT: what is no text of a document
unread() {
    begin "no JSON of: $1"
    text "$1"
    to_json
    prints ''
    ends 1 "to_json: $2\n"
    finish
}

# repeated N TEXT: a text N times
repeated() {
    local n
    for ((n = 0; n < $1; n++)); do
        printf %s "$2"
    done
}

# ---- documents both ways

same true 'bool true'
same false 'bool false'
same null none
same 0 'int 0'
same -5 'int -5'
same '""' "text '"
same '"a"' "text 'a"
same '[]' 'list 0'
same '{}' 'kept 0'
same '[[],{},null,"",[[7]]]' "list 5\nlist 0\nkept 0\nnone\ntext '\nlist 1\nlist 1\nint 7"
same '{"":{"":1}}' "kept 1\n'\nkept 1\n'\nint 1"
same '{"b":[1,{"z":true,"y":null}],"a":{},"":"c"}' \
    "kept 3\n'b\nlist 2\nint 1\nkept 2\n'z\nbool true\n'y\nnone\n'a\nkept 0\n'\ntext 'c"
same '{"a b":"c d","\\":"\\\\","\n":"\n\n"}' "kept 3\n'a\\\\sb\ntext 'c\\\\sd\n'\\\\\\\\\ntext '\\\\\\\\\\\\\\\\\n'\\\\n\ntext '\\\\n\\\\n"
# a backslash before a letter is none of the escapes of a text
same '["\\n","\\s","\\\\s\n"]' "list 3\ntext '\\\\\\\\n\ntext '\\\\\\\\s\ntext '\\\\\\\\\\\\\\\\s\\\\n"
# quotes, steps of paths and words of heads are texts like any other
same "{\"'a\":\"'\",\"#0\":\"int 5\",\"none\":\"none\"}" "kept 3\n''a\ntext ''\n'#0\ntext 'int\\\\s5\n'none\ntext 'none"
both kept ' { "a" : [ 1 , 2 ] } ' "kept 1\n'a\nlist 2\nint 1\nint 2" '{"a":[1,2]}'
# the last of the values of a key, at the place of the first
both kept '{"a":1,"b":2,"a":3}' "kept 2\n'a\nint 3\n'b\nint 2" '{"a":3,"b":2}'
# sorted by bytes: a space is below a letter, though its escape is not, and a character of four bytes above all of three
for kind in ordered hashed; do
    both $kind '{"b":1,"a\ud83d\ude00":2,"a\uffee":3,"aZ":4,"a b":5,"":{"d":6,"c":7}}' \
        "$kind 6\n'\n$kind 2\n'c\nint 7\n'd\nint 6\n'a\\\\sb\nint 5\n'aZ\nint 4\n'a\xef\xbf\xae\nint 3\n'a\xf0\x9f\x98\x80\nint 2\n'b\nint 1" \
        $'{"":{"c":7,"d":6},"a b":5,"aZ":4,"a\xef\xbf\xae":3,"a\xf0\x9f\x98\x80":2,"b":1}'
done

begin 'a kind of maps that there is not'
echo '{}' > json
to_text --arg maps sorted
prints ''
ends 2 'to_text: usage: jq -rn [--arg maps kept|ordered|hashed] -f to_text.jq JSON\n'
finish

# ---- numbers

same '[9007199254740991,-9007199254740991]' 'list 2\nint 9007199254740991\nint -9007199254740991'
same '[1000000000000000,9000000000000000,4503599627370497]' 'list 3\nint 1000000000000000\nint 9000000000000000\nint 4503599627370497'
both kept '[-0,1.0,2.50e1,-3E+2,10e-1]' 'list 5\nint 0\nint 1\nint 25\nint -300\nint 1' '[0,1,25,-300,1]'
shown 'list 4\nint 9223372036854775807\nint -9223372036854775808\nint 9007199254740993\nint -9007199254740993' \
    '[9223372036854775807,-9223372036854775808,9007199254740993,-9007199254740993]'
for number in 9007199254740992 9007199254740993 -9007199254740992 9223372036854775807 -9223372036854775808 \
    18446744073709551615 1e300 1e400 -1e400; do
    unfit $number 'Inexact at the root'
done
unfit 1.5 'Fraction at the root'
unfit -0.5 'Fraction at the root'
unfit 1e-5 'Fraction at the root'

# ---- faults and their paths

unfit '[0,1.5]' 'Fraction at #1'
unfit '{"a":{"b c":[0,[0,0,2.5]]},"d":1.5}' "Fraction at 'a 'b\\\\sc #1 #2"
unfit '{"a\nb":[9007199254740992,0.5],"\\":0.5}' "Inexact at 'a\\\\nb #0"
unfit '{"":0.5}' "Fraction at '"
unfit '' NoDocument
unfit '1 2' SecondDocument

for json in '[1' '{"a":1' "{'a':1}" '[1]]' 'word' '{"a":1} {'; do
    begin "no JSON: $json"
    printf '%s\n' "$json" > json
    to_text
    prints ''
    [ "$ended" -ne 0 ] || differs 'it ended with status 0'
    [ -s errors ] || differs 'there is no fault'
    finish
done

# ---- 64 containers, and 65

same "$(repeated 64 '[')$(repeated 64 ']')" "$(repeated 63 'list 1\n')list 0"
same "$(repeated 64 '[')5$(repeated 64 ']')" "$(repeated 64 'list 1\n')int 5"
same "$(repeated 64 '{"a":')5$(repeated 64 '}')" "$(repeated 64 "kept 1\n'a\n")int 5"
same "$(repeated 63 '[')null$(repeated 63 ']')" "$(repeated 63 'list 1\n')none"
unfit "$(repeated 65 '[')$(repeated 65 ']')" "TooDeep at$(repeated 64 ' #0')"
unfit "$(repeated 64 '[')null$(repeated 64 ']')" "TooDeep at$(repeated 64 ' #0')"
unfit "$(repeated 32 '[0,{"a":')[]$(repeated 32 '}]')" "TooDeep at$(repeated 32 " #1 'a")"
shown "$(repeated 64 'some\n')int 5" 5
shown "$(repeated 32 "list 2\nhashed 1\n'a\n")int 5$(repeated 32 '\nnone')" "$(repeated 32 '[{"a":')5$(repeated 32 '},null]')"

# ---- texts

begin 'every escape of JSON'
printf '%s\n' '["\" \\ \/ \b \f \n \r \t / \u00e9 \u0000 \u001f \u007f \u2028 \ud83d\ude00"]' > json
{
    printf "list 1\ntext '" && printf '"\\s\\\\\\s/\\s\b\\s\f\\s\\n\\s\r\\s\t\\s/\\s\xc3\xa9\\s\0\\s\x1f\\s\x7f\\s\xe2\x80\xa8\\s\xf0\x9f\x98\x80\n'
} > text
to_this_text
archived
to_this_json
finish

begin 'every character of ASCII, in a key and in a text'
for code in {0..127}; do
    printf '\\u%04x' "$code" >&3
    case $code in
        10) printf '\\n' ;;
        32) printf '\\s' ;;
        92) printf '\\\\' ;;
        *) printf "\\$(printf %03o "$code")" ;;
    esac
done > escaped 3> characters
printf '{"%s":"%s"}\n' "$(< characters)" "$(< characters)" > json
{ printf "kept 1\n'" && cat escaped && printf "\ntext '" && cat escaped && echo; } > text
to_this_text
archived
to_this_json
finish

begin 'a line that is longer than what is read at once'
{ printf x && yes $'\xc3\xa9\xe2\x82\xac\xf0\x9f\x98\x80' | head -n 20000 | tr -d '\n' && printf yz; } > long
{ printf '"' && cat long && printf '"\n'; } > json
{ printf "text '" && cat long && echo; } > text
to_this_text
archived
to_this_json
finish

# ---- time

begin 'a list of 100,000 numbers takes seconds'
{ printf '[' && seq -s , 1 100000 | tr -d '\n' && echo ']'; } > json
{ echo 'list 100000' && seq 1 100000 | sed 's/^/int /'; } > text
to_this_text
to_this_json
finish

begin 'a text of 600,000 escapes takes seconds'
{ printf '"' && yes ' b\\c\n' | head -n 200000 | tr -d '\n' && echo '"'; } > json
{ printf "text '" && yes '\sb\\c\n' | head -n 200000 | tr -d '\n' && echo; } > text
to_this_text
to_this_json
finish

# ---- what JSON has no counterpart of

shown 'some\nint 5' 5
shown 'some\nnone' null
shown 'list 2\nsome\nsome\nlist 1\nsome\nbool true\nsome\nlist 0' '[[true],[]]'
shown "list 3\nshared 'a\\\\sb\nshared '\nshared 'a\\\\sb" '["a b","","a b"]'
shown "ordered 2\n'a\nhashed 2\n'b\nkept 2\n'z\nint 1\n'y\nint 2\n'c\nsome\nordered 0\n'd\nnone" \
    '{"a":{"b":{"z":1,"y":2},"c":{}},"d":null}'

shown 'wholes 1\nint 5\nwhole 0' 5
shown "wholes 2\nlist 0\ntext 'a\nordered 2\n'k\nwhole 0\n'l\nlist 3\nwhole 1\nint 1\nwhole 1" '{"k":[],"l":["a",1,"a"]}'
shown "wholes 3\nnone\nordered 1\n'a\nwhole 0\nlist 2\nwhole 1\nwhole 0\nlist 3\nwhole 2\nwhole 1\nwhole 2" \
    '[[{"a":null},null],{"a":null},[{"a":null},null]]'
chain='wholes 31\nint 5\n'
doubled='wholes 10\nint 5\n'
for n in {0..29}; do
    chain+="list 1\nwhole $n\n"
    [ "$n" -gt 8 ] || doubled+="list 2\nwhole $n\nwhole $n\n"
done
shown "${chain}list 1\nwhole 30" "$(repeated 31 '[')5$(repeated 31 ']')"

begin 'ten doubled wholes'
text "${doubled}whole 9\n"
archived
to_json
[ "$(tr -cd 5 < output | wc -c)" -eq 512 ] || differs 'there are not 512 leaves'
jq -e '.[1][0][1][0][1][0][1][0][1] == 5' output > values || differs 'they are not nine lists deep'
ends 0 ''
finish

# ---- what is no text of a document

unread '' 'line 1: EndTooEarly'
unread 'int 5' 'line 1: EndTooEarly'
unread 'list 2\nint 5\n' 'line 3: EndTooEarly'
unread "kept 1\n'a\n" 'line 3: EndTooEarly'
unread 'some\n' 'line 2: EndTooEarly'
unread 'wholes 1\nint 5\n' 'line 3: EndTooEarly'
unread 'int 5\nint 6\n' 'line 2: LineAfterEnd'
unread "hashed 1\nint 5\n" 'line 2: KeyExpected'
unread 'list 1\nset 5\n' 'line 2: UnknownHead'
unread 'int 05\n' 'line 1: UnknownHead'
unread 'whole 0\n' 'line 1: UnknownWhole'
unread 'wholes 2\nint 5\nwhole 1\nwhole 0\n' 'line 3: UnknownWhole'

# ---- settings that are edited

begin 'an edit of settings'
cp "$filters/settings.json" json
to_text
cmp -s output "$filters/text" || differs 'another text is printed'
mv output text
run build text a.cab
lines "set int 1440 'window 'width\n"
run run a.cab
prints 'ok\n'
show a.cab
mv output text
to_json
is_line "$(sed 's/1280/1440/' json | jq -c .)"
ends 0 ''
finish

echo "$passed passed, $failed failed"
[ "$failed" -eq 0 ]
