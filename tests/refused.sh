#!/usr/bin/env bash
# Runs cab, cab_show and cab_edit with each of their allocations, reads, writes and other calls on files refused in turn. After each
# run it compares the fault, the status, what was printed and the files that are left with what is written here.
set -u
. "$(dirname "$0")/steps.sh"
. "$root/tests/bytes.sh"

edit=$work/cab_edit
each=$work/cabinet_refused
example=$work/archive_example
if [ $# -eq 0 ]; then
    proved cab_edit --new list "$work/new.cab"
    proved cabinet_refused
    proved archive_example
fi
cp "${3:-$root/crates/cab_edit/out/cab_edit}" "$edit" && chmod +x "$edit" || exit 1
cp "${4:-$root/crates/cabinet_refused/out/cabinet_refused}" "$each" && chmod +x "$each" || exit 1
cp "${5:-$root/crates/archive_example/out/archive_example}" "$example" && chmod +x "$example" || exit 1
shim=$work/refuse.so
for compiler in "${CC:-cc}" gcc clang; do
    "$compiler" -O2 -fPIC -shared -nostdlib -fno-builtin -fno-stack-protector -o "$shim" "$root/tests/refuse.c" 2> /dev/null && break
done
if [ ! -f "$shim" ]; then
    echo 'skipped: calls are refused by a library that a C compiler builds, and there is none here'
    echo '0 passed, 0 failed'
    exit 0
fi
shopt -s dotglob nullglob
refusals=0

# row NAME TEXT HEX [LINE ANSWER CHANGES]..: a document's text and archive, and the lines of a run: each with its answer and
# the changes of the archive, as `with` takes them, or `=` and the new archive. After n of the lines, answers[n] were printed,
# and the archive is states[state_of[n]].
row() {
    row=$1 document=$2 states=("$3") state_of=(0) answers=('') asked=
    shift 3
    while [ $# -gt 0 ]; do
        case $3 in
            '') ;;
            =*) states+=("${3#=}") ;;
            *) states+=("$(with "${states[-1]}" $3)") ;;
        esac
        state_of+=($((${#states[@]} - 1)))
        printf -v "answers[${#answers[@]}]" '%s%s\n' "${answers[-1]}" "$2"
        asked=$asked$1'\n'
        shift 3
    done
}

# refusing KIND N PREFIX WORD..: runs a program with call N of a kind refused, counted from 1. Of a refused write PREFIX
# bytes are written, and of none if it is empty. Sets what was printed, the faults and the number of calls of that kind.
refusing() {
    LD_PRELOAD=$shim REFUSE_KIND=$1 REFUSE_AT=$2 REFUSE_PREFIX=$3 REFUSE_COUNT=9 "${@:4}" < input > output 2> errors 9> count
    ended=$?
    calls=0
    read -r calls < count
    IFS= read -r -d '' printed < output
    IFS= read -r -d '' fault < errors
    refusals=$((refusals + 1))
}

# is_left FILE: a.cab has the bytes of a file, and there is no other file
is_left() {
    local names=(*)
    cmp -s "$1" a.cab || differs "call $at leaves other bytes than $1: $fault"
    [ "${#names[@]}" = "$files" ] || differs "call $at leaves ${names[*]}"
}

# comes_after STAGE N: what was told is of a later stage than what was told before, or of the same one and of no earlier line
comes_after() {
    [ $(($1 * 1000000 + $2)) -ge "$stage" ] || differs "call $at is told too early: $fault"
    stage=$(($1 * 1000000 + $2))
}

# The fault of a build of text over an old archive.
told_build() {
    local left=old.cab wanted=
    case $fault in
        $'cab: cannot read text\n') comes_after 1 0 ;;
        'cab: text line '*': OutOfMemory'$'\n') comes_after 2 "$(tr -cd 0-9 < errors)" ;;
        $'cab: save: OutOfMemory\n') comes_after 3 0 ;;
        $'cab: cannot write a.cab\n') comes_after 4 0 ;;
        $'cab: cannot write -\n') left=new.cab wanted=any ;;
        '') left=new.cab wanted=$built ;;
        *) differs "call $at is told as $fault" ;;
    esac
    [ "$wanted" = any ] || [ "$printed" = "$wanted" ] || differs "call $at prints $printed"
    is_left $left
}

# The fault of a run of the lines.
told_run() {
    local lines=0 is_prefix= is_old=
    case $fault in
        $'cab: cannot read a.cab\n') comes_after 1 0 ;;
        $'cab: open: OutOfMemory\n') comes_after 2 0 ;;
        'cab: run: '*' lines'$'\n')
            lines=$(tr -cd 0-9 < errors)
            comes_after 3 "$lines"
            ;;&
        "cab: run: OutOfMemory after "* | 'cab: run: Read after '*) ;;
        'cab: run: Write after '*) is_prefix=yes ;;
        $'cab: cannot write a.cab\n') lines=$all is_old=yes ;;
        '') lines=$all ;;
        *) differs "call $at is told as $fault" ;;
    esac
    case ${answers[lines]} in
        "$printed") ;;
        "$printed"*) [ "$is_prefix" ] || differs "call $at prints $printed" ;;
        *) differs "call $at prints $printed" ;;
    esac
    [ "$is_old" ] && is_left state.0 || is_left "state.${state_of[lines]}"
}

# The fault of a session on the document of the archive. What memory is refused for before the first line is told by the
# session or by opening.
told_edit() {
    local lines=0 is_prefix= is_old=
    case $fault in
        $'cab: cannot read a.cab\n') comes_after 1 0 ;;
        $'cab: open: OutOfMemory\n' | $'cab: run: OutOfMemory after 0 lines\n') comes_after 2 0 ;;
        'cab: run: '*' lines'$'\n')
            lines=$(tr -cd 0-9 < errors)
            comes_after 3 "$lines"
            ;;&
        'cab: run: OutOfMemory after '* | 'cab: run: Read after '*) ;;
        'cab: run: Write after '*) is_prefix=yes ;;
        $'cab: save: OutOfMemory\n') comes_after 4 0 && lines=$all is_old=yes ;;
        $'cab: cannot write a.cab\n') comes_after 5 0 && lines=$all is_old=yes ;;
        '') lines=$all ;;
        *) differs "call $at is told as $fault" ;;
    esac
    case ${answers[lines]} in
        "$printed") ;;
        "$printed"*) [ "$is_prefix" ] || differs "call $at prints $printed" ;;
        *) differs "call $at prints $printed" ;;
    esac
    [ "$is_old" ] && is_left state.0 || is_left "state.${state_of[lines]}"
}

# The fault of a session on a new document. There is no file where memory was refused for the archive or its answers, or where
# it was not written; else it is that of the session on an old one.
told_new() {
    case $fault in
        'cab: run: OutOfMemory after 0 lines'$'\n' | $'cab: cannot read a.cab\n' | $'cab: open: OutOfMemory\n' | $'cab: save: OutOfMemory\n' | $'cab: cannot write a.cab\n')
            if [ ! -e a.cab ]; then
                cp state.0 a.cab
            fi
            ;;
    esac
    # memory for the first archive is refused before that for opening it
    [ "$fault" = $'cab: save: OutOfMemory\n' ] && [ -z "$printed" ] || told_edit
}

# The fault of showing the archive, as its text or as a map.
told_show() {
    case $fault in
        $'cab: cannot read a.cab\n' | $'cab: open: OutOfMemory\n') [ -z "$printed" ] || differs "call $at prints $printed" ;;
        $'cab: cannot write -\n') [[ $shown = "$printed"* ]] || differs "call $at prints $printed" ;;
        '') [ "$shown" = "$printed" ] || differs "call $at prints $printed" ;;
        *) differs "call $at is told as $fault" ;;
    esac
    is_left state.0
}

# each TOLD OLD WORD..: runs a program with each call of a kind refused in turn until it makes no more of them, each
# time over an old archive. A refused read or write is always told. The program may do without some of the other calls: equal
# shared texts need not share memory, and not every file system writes a folder to its disk. Then it does all that is asked.
each() {
    local told=$1 old=$2
    shift 2
    at=0 stage=0
    touch a.cab output errors count
    local names=(*)
    files=${#names[@]}
    while
        at=$((at + 1))
        cp "$old" a.cab
        [ "$old" != none ] || rm a.cab
        refusing "$kind" "$at" "$prefix" "$@"
        [ "$calls" -ge "$at" ] && [ -z "$wrong" ]
    do
        case $kind$ended${fault:+ told} in
            allocation0 | file0 | *'1 told') ;;
            *) differs "call $at ends with status $ended" ;;
        esac
        $told
    done
}

# Each call of a kind refused in the build of a row, in the run of its lines and the session on its document, and where it is
# shown and mapped. The map is compared with that of a run in which no call is refused. `programs` are those that carry out
# the lines of a row; with `new` they are carried out in a new document of the kind that is the row's text.
refused() {
    local n
    all=$((${#answers[@]} - 1))
    kind=$1 prefix=$2
    for program in $programs; do
        begin "$row: each $kind${prefix:+ after $prefix bytes} of $program is refused"
        text "$document\n"
        for n in "${!states[@]}"; do
            archive "${states[n]}"
            mv a.cab "state.$n"
        done
        cp state.0 new.cab
        archive "${five}bbbb"
        mv a.cab old.cab
        case $program in
            build)
                built="built $((${#states[0]} / 2))"$'\n'
                each told_build old.cab "$cab" build text a.cab
                prints "$built"
                cmp -s a.cab new.cab || differs 'the archive has other bytes'
                ;;
            run)
                lines "$asked"
                each told_run state.0 "$cab" run a.cab
                prints "${answers[all]}"
                cmp -s a.cab "state.${state_of[all]}" || differs 'the archive has other bytes'
                ;;
            edit)
                lines "$asked"
                each told_edit state.0 "$edit" a.cab
                prints "${answers[all]}"
                cmp -s a.cab "state.${state_of[all]}" || differs 'the archive has other bytes'
                ;;
            new)
                lines "$asked"
                : > none
                each told_new none "$edit" --new "${document% *}" a.cab
                prints "${answers[all]}"
                cmp -s a.cab "state.${state_of[all]}" || differs 'the archive has other bytes'
                ;;
            show)
                printf -v shown "$document\n"
                each told_show state.0 "$show" a.cab
                prints "$document\n"
                cmp -s a.cab state.0 || differs 'the archive was written'
                ;;
            map)
                "$show" --map state.0 > wanted
                IFS= read -r -d '' shown < wanted
                each told_show state.0 "$show" --map a.cab
                cmp -s output wanted || differs 'the map is another'
                cmp -s a.cab state.0 || differs 'the archive was written'
                ;;
        esac
        ends 0 ''
        finish
    done
}

# Each call of each kind.
refused_each() {
    refused allocation ''
    refused read ''
    refused write ''
    refused write 1
    refused write 7
    refused file ''
}

programs='build run edit show map'
row 'an ordered map' "ordered 2\n'coffee\nint 300\n'tea\nint 250" "$coffee" \
    get 'ordered 2' '' "get 'tea" 'int 250' '' "set int 275 'tea" ok '80 1301' "get 'tea" 'int 275' ''
refused_each
row 'a hashed map in an ordered one' "ordered 1\n'eu\nhashed 1\n'vat\nlist 2\nint 7\nint 19" "$under_eu" \
    "get 'eu 'vat #1" 'int 19' '' "set int 20 'eu 'vat #1" ok '32 14' "get 'eu 'vat #1" 'int 20' '' "get 'eu 'vat #0" 'int 7' '' \
    "get 'eu 'vat #2" missing ''
refused_each
row 'shared texts' "list 2\nshared 'hello\\\\sworld!\nshared 'hello\\\\sworld!" "$twice" \
    'get #0' "shared 'hello\\sworld!" '' 'get #1' "shared 'hello\\sworld!" '' "set text 'HELLO\\\\sWORLD! #0" refused ''
refused_each
row 'a kept map' "kept 2\n'z\nint 1\n'a\nint 2" "$z_and_a" \
    keys "keys 2 'z 'a" '' "get 'a" 'int 2' '' "get 'b" missing '' 'get #0' missing '' "set int 3 'a" ok '96 03' "get 'a" 'int 3' ''
refused_each
row 'a whole in two elements' "wholes 1\nint 5\nlist 2\nwhole 0\nwhole 0" "$wholes" \
    'get #0' whole '' 'get #1 ?' 'int 5' '' 'set int 6 #0 ?' refused '' 'set int 6 #0' refused '' "get #0 'a" missing ''
refused_each
row 'a whole in three maps' \
    "wholes 1\nint 5\nlist 3\nordered 2\n'a\nwhole 0\n'b\nint 6\nhashed 2\n'a\nwhole 0\n'b\nint 7\nkept 2\n'b\nint 8\n'a\nwhole 0" "$in_maps" \
    "get #0 'a ?" 'int 5' '' "set int 9 #1 'b" ok '248 09' "get #1 'b" 'int 9' '' "set int 6 #1 'a ?" refused '' "keys #2" "keys 2 'b 'a" ''
refused_each

question=$(printf ' ?%.0s' {1..64})
row '64 options, one in the other' "$(printf 'some\\n%.0s' {1..64})int 5" "$five$(printf "$some%.0s" {1..64})" \
    "get$question" 'int 5' '' "set int 6$question" ok '8 06' "get$question ?" missing '' "get$question" 'int 6' ''
refused_each

# more answers than wait to be written, and more lines than are read at once
long=$(printf 'x%.0s' {1..90})
get="text '$long"
edited="text '${long/x/y}"
many=()
for n in {1..800}; do
    case $n in
        300) many+=("set $edited" ok '0 79') get=$edited ;;
        780) many+=("set text '$long" ok '0 78') get="text '$long" ;;
        *) many+=(get "$get" '') ;;
    esac
    [ $((n % 5)) -gt 0 ] || many+=("get$question$question" missing '')
done
row 'many lines' "text '$long" "$(printf '78%.0s' {1..90})$(zeros 6)020000009a0100009cffffff$(zeros 12)" "${many[@]}"
refused_each

programs='edit'
row 'a list that grows' 'list 2\nint 7\nint 19' "$seven$nineteen$two" 'get #2' missing '' \
    'insert int 5 #2' ok "=$seven$nineteen${five}05000000b4ffffff03000000$(zeros 12)" 'get #2' 'int 5' '' 'put list 1 #0' bad '' \
    "put text 'hello\\sworld! #0" ok "=68656c6c6f20776f726c642100000000020000008c000000ecffffff$(zeros 12)$nineteen${five}05000000b4ffffff03000000$(zeros 12)" \
    'remove #0' ok "=$nineteen${five}$two" 'remove' refused '' 'get' 'list 2' ''
refused_each
programs='edit new'
row 'a new list' 'list 0' "05000000fcffffff$(zeros 16)" get 'list 0' '' 'insert int 7 #0' ok "=${seven}05000000e4ffffff01000000$(zeros 12)" \
    'put int 19 #1' ok "=$seven$nineteen$two" 'get #1' 'int 19' ''
refused_each

# each_call PLACE STEP: the program that makes each call, with one of STEP allocations refused in turn
each_call() {
    local told=0
    begin "one of $2 allocations of each call is refused: document $1"
    at=1
    while
        refusing allocation $at '' "$each" "$1"
        [ "$calls" -ge $at ] && [ -z "$wrong" ]
    do
        case $ended$printed in
            $'016 done, 0 refused, 0 wrong\n') ;;
            $'016 done, 1 refused, 0 wrong\n') told=$((told + 1)) ;;
            *) differs "allocation $at: $printed" ;;
        esac
        at=$((at + $2))
    done
    prints '16 done, 0 refused, 0 wrong\n'
    ends 0 ''
    [ $told -gt 0 ] || differs "no refusal of $calls allocations was told"
    finish
}

begin 'each allocation of the example is refused'
at=1
shown=$(< "$root/crates/archive_example/stdout")$'\n'
while
    refusing allocation $at '' "$example"
    [ "$calls" -ge $at ] && [ -z "$wrong" ]
do
    [[ $shown = "$printed"* ]] || differs "allocation $at: it printed $printed"
    case $ended$fault in
        0) [ "$shown" = "$printed" ] || differs "allocation $at: it printed $printed" ;;
        $'1Error: Archive(OutOfMemory)\n' | '1Error: Print('*$'\n') ;;
        *) differs "allocation $at is told as $fault" ;;
    esac
    at=$((at + 1))
done
[ "$shown" = "$printed" ] || differs "it printed $printed"
ends 0 ''
finish

for place in {0..6} 13 14; do
    each_call "$place" 1
done
for place in 7 8 9; do
    each_call "$place" 2
done
for place in 10 11 12; do
    each_call "$place" 97
done

echo "$refusals runs"
echo "$passed passed, $failed failed"
[ "$failed" = 0 ]
