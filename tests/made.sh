# Archives of containers, made part by part: each directly after the parts that it leads to. Sourced by tests/program.sh,
# after tests/bytes.sh. The bytes so far are in `made`, in hexadecimal. A node that is not written yet, while what it leads
# to is, is one word: its kind, the position that it leads to and its number of entries, or `plain` and its bytes.

made_zeros=$(zeros 120)
made_five=plain:$five
made_fives="$made_five $made_five $made_five $made_five $made_five"
made_empty_map=plain:$(map 1 0)

# push_word NUMBER: a number, in four bytes
push_word() {
    local hex
    printf -v hex %08x $(($1 & 0xffffffff))
    made+=${hex:6}${hex:4:2}${hex:2:2}${hex:0:2}
}

# push_pointer POSITION: a pointer to a position before it
push_pointer() {
    push_word $(($1 - ${#made} / 2))
}

# push_node NODE: the bytes of a node
push_node() {
    local kind=${1%%:*} rest=${1#*:}
    case $kind in
        plain)
            made+=$rest
            return
            ;;
        some) made+=0400000001000000 ;;
        shared) made+=03000000 ;;
        list) made+=05000000 ;;
        map) made+=06000000 ;;
    esac
    push_pointer "${rest%:*}"
    if [ "$kind" != some ]; then
        push_word "${rest#*:}"
    fi
    made+=${made_zeros:0:24}
}

# push_slots KEYS NODE..: in a node of a tree the keys, of one character each, and their nodes; `-` is the empty key
push_slots() {
    local place code node
    for ((place = 0; place < ${#1}; place++)); do
        code=ff
        [ "${1:place:1}" = - ] || printf -v code %02x "'${1:place:1}"
        made+=${code}ffffffffffffff
    done
    made+=${made_zeros:0:16 * (5 - place) + 8}
    for node in "${@:2}"; do
        push_node "$node"
    done
    made+=${made_zeros:0:48 * (5 - place)}
}

# push_leaf KEYS NODE..: a leaf; sets `at` to its position
push_leaf() {
    at=$((${#made} / 2))
    made+=00000000
    push_slots "$@"
    push_word ${#1}
    made+=00000000
}

# push_inner KEYS CHILDREN NODE..: an inner node of five keys; CHILDREN are six positions, or `-` where there is no child.
# Sets `at` to its position.
push_inner() {
    local start=$((${#made} / 2)) child
    made+=01000000
    push_slots "$1" "${@:3}"
    for child in $2; do
        if [ "$child" = - ]; then
            made+=$absent
        else
            push_pointer "$child"
        fi
    done
    at=$start
}

# push_inside KIND NODE: what a container of one node leads to; sets `node` to the container
push_inside() {
    case $1 in
        map)
            push_leaf k "$2"
            node=map:$at:1
            ;;
        *)
            at=$((${#made} / 2))
            push_node "$2"
            node=$1:$at:1
            ;;
    esac
}

# push_tower TIMES NODE KIND..: what containers in one another lead to, whose kinds repeat, the innermost first; sets
# `node` to the outermost one
push_tower() {
    local n kind
    node=$2
    for ((n = 0; n < $1; n++)); do
        for kind in "${@:3}"; do
            push_inside "$kind" "$node"
        done
    done
}
