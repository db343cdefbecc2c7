# The steps of a case. Sourced by the scripts whose cases run cab and cab_show: with the paths of these programs, or else
# those of crates/cab and crates/cab_show, which are proved and built first. A script whose cases need another command
# sets `needs` to its name before; where that is not installed, the script ends here.
set -u
root=$(cd "$(dirname "${BASH_SOURCE[0]}")/.." && pwd)
if [ "${needs:-}" ] && ! command -v "$needs" > /dev/null; then
    echo "skipped: $needs is not installed here"
    echo '0 passed, 0 failed'
    exit 0
fi
work=$(mktemp -d)
# a file system that a case mounted, and left when the script was stopped
trap 'umount "$work/files/full" 2> /dev/null; rm -rf "$work"' EXIT
cab=$work/cab
show=$work/cab_show

# proved NAME WORD..: proves and builds a program, if that is not done yet, and runs it
proved() {
    local program=$1
    shift
    echo "proving and building $program"
    if ! (cd "$root/crates/$program" && rt run -- "$@") < /dev/null > "$work/log" 2>&1; then
        cat "$work/log"
        echo "$program was not built"
        echo '0 passed, 1 failed'
        exit 1
    fi
}

# Without the paths of the programs, proves and builds them.
if [ $# -eq 0 ]; then
    proved cab build "$root/examples/first/text" "$work/first.cab"
    proved cab_show "$work/first.cab"
fi
cp "${1:-$root/crates/cab/out/cab}" "$cab" && chmod +x "$cab" || exit 1
cp "${2:-$root/crates/cab_show/out/cab_show}" "$show" && chmod +x "$show" || exit 1
mkdir "$work/files"
cd "$work/files" || exit 1

usage='cab: usage: cab build TEXT ARCHIVE | cab run ARCHIVE\n'
show_usage='cab_show: usage: cab_show ARCHIVE | cab_show --map [--lines N] [--path N] ARCHIVE\n'
passed=0
failed=0

# ---- the steps of a case

begin() {
    name=$1
    wrong=
    rm -rf ./* ./.[!.]*
    : > input
}

# text FORMAT: the file text, as printf writes it
text() {
    printf "$1" > text
}

# lines FORMAT: the standard input
lines() {
    printf "$1" > input
}

# archive HEX: the file a.cab
archive() {
    printf "$(sed 's/../\\x&/g' <<< "$1")" > a.cab
}

# put AT HEX: changes bytes of the file a.cab
put() {
    printf "$(sed 's/../\\x&/g' <<< "$2")" | dd of=a.cab bs=1 seek="$1" conv=notrunc status=none
}

# runs cab with the given words
run() {
    "$cab" "$@" < input > output 2> errors
    ended=$?
}

# runs cab_show with the given words
show() {
    "$show" "$@" < input > output 2> errors
    ended=$?
}

differs() {
    wrong="$wrong; $1"
}

# prints FORMAT: what the program wrote to its standard output
prints() {
    printf "$1" | cmp -s - output || differs "it printed $(head -c 200 output | tr '\n' '|')"
}

# ends STATUS FORMAT: the status that the program ended with, and what it wrote to its standard error
ends() {
    [ "$ended" = "$1" ] || differs "it ended with status $ended"
    printf "$2" | cmp -s - errors || differs "its faults were $(head -c 200 errors | tr '\n' '|')"
}

# holds FILE HEX: the bytes of a file
holds() {
    [ "$(od -An -v -t x1 "$1" 2> /dev/null | tr -d ' \n')" = "$2" ] || differs "$1 has other bytes"
}

lacks() {
    [ ! -e "$1" ] || differs "$1 is there"
}

# leaves NAME..: the names in the folder, without those of the steps themselves
leaves() {
    local names
    names=$(ls -A | grep -vx -e input -e output -e errors | sort | tr '\n' ' ')
    [ "$names" = "$(printf '%s\n' "$@" | sort | tr '\n' ' ' | sed 's/^ $//')" ] || differs "the folder has $names"
}

# file_is FILE FORMAT WORDS: what stat says of a file
file_is() {
    [ "$(stat -c "$2" "$1" 2> /dev/null)" = "$3" ] || differs "$1 is $(stat -c "$2" "$1" 2>&1), and not $3"
}

skip() {
    echo "skipped: $name: $1"
}

finish() {
    if [ -z "$wrong" ]; then
        passed=$((passed + 1))
        echo "ok: $name"
    else
        failed=$((failed + 1))
        echo "FAILED: $name$wrong"
    fi
}
