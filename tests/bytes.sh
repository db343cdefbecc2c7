# The bytes of nodes, in hexadecimal. Sourced by the scripts that compare archives with bytes.

five=010000000000000005000000000000000000000000000000
six=010000000000000006000000000000000000000000000000
seven=010000000000000007000000000000000000000000000000
nineteen=010000000000000013000000000000000000000000000000
twenty=010000000000000014000000000000000000000000000000
two=05000000ccffffff02000000000000000000000000000000
# an option of the node that ends where it begins
some=0400000001000000e0ffffff000000000000000000000000
# a list of it
one=05000000e4ffffff01000000000000000000000000000000
none=040000000000000000000000000000000000000000000000
# a whole of it, and of the node that ends 24 bytes before it begins
whole=09000000e4ffffff00000000000000000000000000000000
again=09000000ccffffff00000000000000000000000000000000
# the list of the whole 5 twice: one node, to which both elements lead
wholes=$five$whole$again$two
# a list of two shared texts, `hello world!` twice, and the empty text twice
twice=68656c6c6f20776f726c64210000000003000000ecffffff0c000000000000000000000000000000
twice=${twice}03000000d4ffffff0c00000000000000000000000000000005000000ccffffff02000000000000000000000000000000
empties=000000000000000003000000f4ffffff0000000000000000000000000000000003000000dcffffff0000000000000000000000000000000005000000ccffffff02000000000000000000000000000000

absent=01000000

# zeros N: N bytes of zero
zeros() {
    printf "%0$((2 * $1))d" 0
}

# word N: a number, in four bytes
word() {
    local hex
    printf -v hex %08x $(($1 & 0xffffffff))
    echo "${hex:6}${hex:4:2}${hex:2:2}${hex:0:2}"
}

# key KEY: the eight bytes of a key of at most eight characters of ASCII
key() {
    local bytes= place code
    for place in {0..7}; do
        code=ff
        [ "$place" -ge ${#1} ] || printf -v code %02x "'${1:place:1}"
        bytes=$bytes$code
    done
    echo "$bytes"
}

# number N: the node of a number from 0 to 2^31 - 1
number() {
    echo "0100000000000000$(word "$1")$(zeros 12)"
}

# slots KEY NUMBER ..: in a node of a tree the five keys, what no field has, and the five values, all numbers; the last
# keys and values are unused
slots() {
    local keys= values=
    while [ $# -gt 0 ]; do
        keys=$keys$(key "$1")
        values=$values$(number "$2")
        shift 2
    done
    keys=$keys$(zeros 44)
    values=$values$(zeros 120)
    echo "${keys:0:88}${values:0:240}"
}

# leaf KEY NUMBER ..: a leaf of a tree, 176 bytes
leaf() {
    echo "00000000$(slots "$@")$(word $(($# / 2)))00000000"
}

# inner CHILDREN KEY NUMBER ..: an inner node of a tree, 192 bytes; CHILDREN are the offsets of its six children
inner() {
    echo "01000000$(slots "${@:2}")$1"
}

# map OFFSET LENGTH: the node of an ordered map
map() {
    echo "06000000$(word "$1")$(word "$2")$(zeros 12)"
}

# with BYTES AT HEX ..: the bytes, changed at these positions
with() {
    local bytes=$1
    while [ $# -gt 1 ]; do
        bytes=${bytes:0:2 * $2}$3${bytes:2 * $2 + ${#3}}
        shift 2
    done
    echo "$bytes"
}

# hash_of KEY: sets `hash` to the hash of a text of ASCII: each word of eight bytes, the first byte lowest, and the word 255
# at the end. Numbers here have 64 bits, as the hash has, with a sign.
hash_of() {
    local word at place code
    hash=0
    for ((at = 0; at < ${#1}; at += 8)); do
        word=0
        for place in {7..0}; do
            code=0
            [ $((at + place)) -ge ${#1} ] || printf -v code %d "'${1:at + place:1}"
            word=$((word << 8 | code))
        done
        hash=$((((hash << 5 | hash >> 59 & 31) ^ word) * 0x517cc1b727220a95))
    done
    hash=$((((hash << 5 | hash >> 59 & 31) ^ 255) * 0x517cc1b727220a95))
}

# first_place PLACES: sets `place` to what is left of `hash` without its sign
first_place() {
    place=$((((hash >> 1 & 0x7fffffffffffffff) % $1 * 2 + (hash & 1)) % $1))
}

# table KEY NODE ..: the buckets and the controls of at most fourteen pairs. Sixteen places or fewer have one stride, so
# each pair lies at the first free place from its hash on. A bucket ends where that of the place before begins.
table() {
    local count=$(($# / 2)) hash place control of_places=() of_tags=() bytes=
    local places=$((count * 8 / 7 > count ? count * 8 / 7 : count + 1))
    while [ $# -gt 0 ]; do
        hash_of "$1"
        first_place $places
        while [ "${of_places[place]:-}" ]; do
            place=$(((place + 1) % places))
        done
        of_places[place]=$(key "$1")$2
        printf -v of_tags[place] %02x $((hash >> 57 & 127))
        shift 2
    done
    for ((place = places - 1; place >= 0; place--)); do
        bytes=$bytes${of_places[place]:-$(zeros 32)}
    done
    for ((control = 0; control < 31; control++)); do
        if [ $control -lt $((2 * places)) ]; then
            bytes=$bytes${of_tags[control % places]:-ff}
        else
            bytes=${bytes}ff
        fi
    done
    echo "$bytes"
}

# hashed OFFSET LENGTH PLACES: the node of a hashed map
hashed() {
    echo "07000000$(word "$1")$(word "$2")$(word "$3")$(zeros 8)"
}

# the list of the whole 1 twice, by itself and as it lies in longer archives
one_twice=$(number 1)$whole$again$two

# the whole 5 as a value in an ordered, a hashed and a kept map, each beside a number under b: the leaf from 24 on, the table of
# the hashed map from 200 on, that of the kept map from 328 on and its entries from 376 on, the list's elements from 440 on
in_maps=$five$(with "$(leaf a 0 b 6)" 48 "09000000b4ffffff$(zeros 16)")$(table a "090000002cffffff$(zeros 16)" b "$(number 7)")00
in_maps=${in_maps}01000000$(zeros 8)ff5355ff5355$(printf 'ff%.0s' {1..25})$(zeros 5)
in_maps=$in_maps$(key b)$(number 8)$(key a)090000005cfeffff$(zeros 16)
in_maps=$in_maps$(map -420 2)$(hashed -172 2 3)0800000068ffffff020000000300000080ffffff$(zeros 4)05000000b4ffffff03000000$(zeros 12)

# the ordered map from coffee to 300 and from tea to 250, and that from a to f to the numbers from 1 to 6
coffee=$(leaf coffee 300 tea 250)060000004cffffff02000000000000000000000000000000
letters=$(leaf a 1)$(inner "a8feffff$absent$absent$absent$absent$absent" b 2 c 3 d 4 e 5 f 6)060000003cffffff06000000000000000000000000000000

# the hashed maps from a to `world`, and from a to 1, and the ordered map from eu to that from vat to the list of 7 and 19
world=61ffffffffffffff02000000776f726c64ffffff$(zeros 44)ff55ff55$(printf 'ff%.0s' {1..27})0007000000dcffffff01000000020000000000000000000000
single=$(table a "$(number 1)")00$(hashed -36 1 2)
under_eu="$seven$nineteen$(table vat "05000000a4ffffff02000000$(zeros 12)")00$(with "$(leaf eu 0)" 48 "$(hashed -84 1 2)")$(map -180 1)"

# the kept map from z to 1 and from a to 2: the numbers of its three places, the controls from 12 on, the entries from 48
# on, and the root from 112 on
z_and_a=0100000000000000$(zeros 4)ff1155ff1155$(printf 'ff%.0s' {1..25})$(zeros 5)$(key z)$(number 1)$(key a)$(number 2)0800000098ffffff0200000003000000b0ffffff$(zeros 4)
