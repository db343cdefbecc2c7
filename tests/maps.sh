# The cases of cab_show --map. Sourced by tests/program.sh. The lines that are wanted were worked out from docs/FORMAT.md.

# maps WORD..: a.cab has the map that the standard input has; the words are those after --map
maps() {
    cat > wanted
    cp a.cab before.cab
    show --map "$@" a.cab
    cmp -s output wanted || differs "it printed $(head -c 400 output | tr '\n' '|')"
    ends 0 ''
    cmp -s a.cab before.cab || differs 'a.cab was written'
    rm wanted before.cab
}

# built TEXT: a.cab is the archive of a text
built() {
    begin "the map of: ${1:0:60}"
    text "$1\n"
    run build text a.cab
    ends 0 ''
}

# stored NAME HEX: a.cab has these bytes
stored() {
    begin "the map of $1"
    archive "$2"
}

# ---- the examples of README.md

begin 'the map of the example settings'
run build "$root/examples/settings/text" a.cab
maps << 'END'
         0         11 text     'backup ? 'folder
        11          5 unused
        16         48 elements 'backup ? 'hours
        64        176 tree     'backup ?
       240         24 node     'backup
       264          9 key      'window 'maximized
       273          7 unused
       280        176 tree     'window
       456        176 tree
       632         24 root

nodes
                    1 bool
                    4 int
                    2 text
                    2 option
                    1 list
                    3 ordered
                   13 in all
bytes
                   24 root
                   24 nodes
                   48 elements
                  528 trees
                   11 texts
                    9 keys
                   12 unused
                  656 in all
END
finish

begin 'the map of the example catalogue'
run build "$root/examples/catalogue/text" a.cab
maps << 'END'
         0         14 text     #0 'author ? 'name
        14          2 unused
        16        176 tree     #0 'author ?
       192         24 node     #0 'author
       216         12 text     #0 'remark ?
       228          4 unused
       232         24 node     #0 'remark
       256         34 text     #0 'title
       290          6 unused
       296        176 tree     #0
       472        176 tree     #1
       648         48 elements
       696         24 root

nodes
                    2 bool
                    3 int
                    4 text
                    4 option
                    1 list
                    3 ordered
                   17 in all
bytes
                   24 root
                   48 nodes
                   48 elements
                  528 trees
                   60 texts
                   12 unused
                  720 in all
END
finish

# the record of the publisher is mapped where it is found first
begin 'the map of the example publisher'
run build "$root/examples/publisher/text" a.cab
maps << 'END'
         0          9 key      #0 'publisher
         9         17 text     #0 'publisher ? 'name
        26          6 unused
        32        176 tree     #0 'publisher ?
       208         24 whole    #0 'publisher
       232         34 text     #0 'title
       266          6 unused
       272        176 tree     #0
       448          9 key      #1 'publisher
       457         24 text     #1 'title
       481          7 unused
       488        176 tree     #1
       664          9 key      #2 'publisher
       673         18 text     #2 'title
       691          5 unused
       696        176 tree     #2
       872         72 elements
       944         24 root

nodes
                    4 int
                    5 text
                    1 list
                    4 ordered
                    3 whole
                   17 in all
bytes
                   24 root
                   24 wholes
                   72 elements
                  704 trees
                   93 texts
                   27 keys
                   24 unused
                  968 in all
END
finish

# ---- nodes outside maps

built 'int 5'
maps << 'END'
         0         24 root

nodes
                    1 int
                    1 in all
bytes
                   24 root
                   24 in all
END
finish

built "text 'hello\\sworld!"
maps << 'END'
         0         12 text
        12          4 unused
        16         24 root

nodes
                    1 text
                    1 in all
bytes
                   24 root
                   12 texts
                    4 unused
                   40 in all
END
finish

# a text of at most eight bytes is in its node
built "list 4\ntext 'short\ntext 'hello\\sworld!\ntext '12345678\ntext '123456789"
maps << 'END'
         0         12 text     #1
        12          9 text     #3
        21          3 unused
        24         96 elements
       120         24 root

nodes
                    4 text
                    1 list
                    5 in all
bytes
                   24 root
                   96 elements
                   21 texts
                    3 unused
                  144 in all
END
finish

built 'some\nsome\nint 5'
maps << 'END'
         0         24 node     ?
        24         24 node
        48         24 root

nodes
                    1 int
                    2 option
                    3 in all
bytes
                   24 root
                   48 nodes
                   72 in all
END
finish

built 'list 3\nnone\nlist 2\nsome\nbool true\nint 6\nlist 1\nlist 0'
maps << 'END'
         0         24 node     #1 #0
        24         48 elements #1
        72         24 elements #2
        96         72 elements
       168         24 root

nodes
                    1 bool
                    1 int
                    2 option
                    4 list
                    8 in all
bytes
                   24 root
                   24 nodes
                  144 elements
                  192 in all
END
finish

# regions of no bytes, and pointers that are not read
built "list 6\nlist 0\nordered 0\nhashed 0\nkept 0\ntext '\nnone"
maps << 'END'
         0        144 elements
       144         24 root

nodes
                    1 text
                    1 option
                    2 list
                    1 ordered
                    1 hashed
                    1 kept
                    7 in all
bytes
                   24 root
                  144 elements
                  168 in all
END
finish

# ---- shared texts and wholes

stored 'a list of a shared text twice' "$twice"
maps << 'END'
         0         12 shared   #0
        12          4 unused
        16         48 elements
        64         24 root

nodes
                    2 shared
                    1 list
                    3 in all
bytes
                   24 root
                   48 elements
                   12 shared texts
                    4 unused
                   88 in all
END
finish

# an empty shared text has no region, and is followed by a byte that none claims
stored 'a list of the empty shared text twice' "$empties"
maps << 'END'
         0          8 unused
         8         48 elements
        56         24 root

nodes
                    2 shared
                    1 list
                    3 in all
bytes
                   24 root
                   48 elements
                    8 unused
                   80 in all
END
finish

built "list 2\nsome\nshared 'hello\\sworld!\nshared 'hello\\sworld!"
maps << 'END'
         0         12 shared   #0 ?
        12          4 unused
        16         24 node     #0
        40         48 elements
        88         24 root

nodes
                    2 shared
                    1 option
                    1 list
                    4 in all
bytes
                   24 root
                   24 nodes
                   48 elements
                   12 shared texts
                    4 unused
                  112 in all
END
finish

# the first element leads to it first, although the node in the option lies before
built "list 2\nshared 'hello\\sworld!\nsome\nshared 'hello\\sworld!"
maps << 'END'
         0         12 shared   #0
        12          4 unused
        16         24 node     #1
        40         48 elements
        88         24 root

nodes
                    2 shared
                    1 option
                    1 list
                    4 in all
bytes
                   24 root
                   24 nodes
                   48 elements
                   12 shared texts
                    4 unused
                  112 in all
END
finish

stored 'a list of a whole twice' "$wholes"
maps << 'END'
         0         24 whole    #0
        24         48 elements
        72         24 root

nodes
                    1 int
                    1 list
                    2 whole
                    4 in all
bytes
                   24 root
                   24 wholes
                   48 elements
                   96 in all
END
finish

stored 'equal wholes apart' "$five$five$again$again$two"
maps << 'END'
         0         24 whole    #0
        24         24 whole    #1
        48         48 elements
        96         24 root

nodes
                    2 int
                    1 list
                    2 whole
                    5 in all
bytes
                   24 root
                   48 wholes
                   48 elements
                  120 in all
END
finish

# a shared text in a whole, which lies in another one
built "wholes 2\nshared 'a\nlist 2\nwhole 0\nshared 'a\nlist 2\nwhole 1\nwhole 0"
maps << 'END'
         0          1 shared   #0 ? #0 ?
         1          7 unused
         8         24 whole    #0 ? #0
        32         48 elements #0 ?
        80         24 whole    #0
       104         48 elements
       152         24 root

nodes
                    2 shared
                    2 list
                    3 whole
                    7 in all
bytes
                   24 root
                   48 wholes
                   96 elements
                    1 shared texts
                    7 unused
                  176 in all
END
finish

stored 'a whole in an ordered, a hashed and a kept map' "$in_maps"
maps << 'END'
         0         24 whole    #0 'a
        24        176 tree     #0
       200        127 table    #1
       327          1 unused
       328         43 table    #2
       371          5 unused
       376         64 entries  #2
       440         72 elements
       512         24 root

nodes
                    4 int
                    1 list
                    1 ordered
                    1 hashed
                    1 kept
                    3 whole
                   11 in all
bytes
                   24 root
                   24 wholes
                   72 elements
                  176 trees
                  170 tables
                   64 entries
                    6 unused
                  536 in all
END
finish

# each whole is counted once, and not once for each use
begin 'the map of thirty doubled wholes'
archive "$(number 1)$(printf "$whole$again$two%.0s" {1..30})"
maps --lines 1 << END
         0         24 whole   $(printf ' #0 ?%.0s' {1..29}) #0
.. and 60 more

nodes
                    1 int
                   30 list
                   60 whole
                   91 in all
bytes
                   24 root
                  720 wholes
                 1440 elements
                 2184 in all
END
finish

# ---- maps

# one node of the tree has only the first key, and the other the five after it
built "list 1\nordered 6\n'a\ntext '123456789\n'b\nint 2\n'c\nint 3\n'd\nint 4\n'e\nint 5\n'f\ntext 'abcdefghi"
maps << 'END'
         0          9 text     #0 'a
         9          7 unused
        16        176 tree     #0
       192          9 text     #0 'f
       201          7 unused
       208        192 tree     #0
       400         24 elements
       424         24 root

nodes
                    4 int
                    2 text
                    1 list
                    1 ordered
                    8 in all
bytes
                   24 root
                   24 elements
                  368 trees
                   18 texts
                   14 unused
                  448 in all
END
finish

# the inner node has f and h to k, its children a to e and g: the children are visited before its own entries
built "ordered 11\n$(printf "'%s\\\\nint 1\\\\n" a b c d e)'f\nshared 'hello\\sworld!\n'g\nshared 'hello\\sworld!\n$(printf "'%s\\\\nint 1\\\\n" h i j)'k\nint 1"
maps << 'END'
         0        176 tree
       176         12 shared   'g
       188          4 unused
       192        176 tree
       368        192 tree
       560         24 root

nodes
                    9 int
                    2 shared
                    1 ordered
                   12 in all
bytes
                   24 root
                  544 trees
                   12 shared texts
                    4 unused
                  584 in all
END
finish

stored 'a tree whose one child is a leaf without entries' "$empty_leaf"
maps << 'END'
         0        176 tree
       176        192 tree
       368         24 root

nodes
                    5 int
                    1 ordered
                    6 in all
bytes
                   24 root
                  368 trees
                  392 in all
END
finish

# the second key has the lower place
built "hashed 2\n'a\nshared 'hello\\sworld!\n'b\nshared 'hello\\sworld!"
maps << 'END'
         0         12 shared   'b
        12          4 unused
        16        127 table
       143          1 unused
       144         24 root

nodes
                    2 shared
                    1 hashed
                    3 in all
bytes
                   24 root
                  127 tables
                   12 shared texts
                    5 unused
                  168 in all
END
finish

built "hashed 1\n'hello\\sworld!\nhashed 1\n'a\ntext '123456789"
maps << 'END'
         0         12 key      'hello\sworld!
        12          9 text     'hello\sworld! 'a
        21          3 unused
        24         95 table    'hello\sworld!
       119          1 unused
       120         95 table
       215          1 unused
       216         24 root

nodes
                    1 text
                    2 hashed
                    3 in all
bytes
                   24 root
                  190 tables
                    9 texts
                   12 keys
                    5 unused
                  240 in all
END
finish

# an empty place is told by any control from 80 on, though ff is written
stored 'a place that is empty by the control 80' "61ffffffffffffff02000000776f726c64ffffff$(zeros 44)80558055$(printf '80%.0s' {1..27})0007000000dcffffff0100000002000000$(zeros 8)"
maps << 'END'
         0         95 table
        95          1 unused
        96         24 root

nodes
                    1 text
                    1 hashed
                    2 in all
bytes
                   24 root
                   95 tables
                    1 unused
                  120 in all
END
finish

built "kept 1\n'a\nkept 2\n'hello\\sworld!\nkept 0\n'b\ntext '123456789"
maps << 'END'
         0         39 table
        39          1 unused
        40         43 table    'a
        83         12 key      'a 'hello\sworld!
        95          9 text     'a 'b
       104         64 entries  'a
       168         32 entries
       200         24 root

nodes
                    1 text
                    3 kept
                    4 in all
bytes
                   24 root
                   82 tables
                   96 entries
                    9 texts
                   12 keys
                    1 unused
                  224 in all
END
finish

# a backslash, a newline and a space in a key
built "ordered 1\n'a\\\\\\\\b\\\\nc\\\\sd\nsome\nint 5"
maps << 'END'
         0         24 node     'a\\b\nc\sd
        24        176 tree
       200         24 root

nodes
                    1 int
                    1 option
                    1 ordered
                    3 in all
bytes
                   24 root
                   24 nodes
                  176 trees
                  224 in all
END
finish

# ---- as deep as containers lie in one another

built "$(printf 'some\\n%.0s' {1..64})text 'hello\\sworld!"
maps --lines 3 << END
         0         12 text    $(printf ' ?%.0s' {1..64})
        12          4 unused
        16         24 node    $(printf ' ?%.0s' {1..63})
.. and 64 more

nodes
                    1 text
                   64 option
                   65 in all
bytes
                   24 root
                 1536 nodes
                   12 texts
                    4 unused
                 1576 in all
END
finish

# nothing that is accepted lies deeper
stored 'a text under 64 keys, each at the end of a tree of 32 levels' \
    "$innermost$(printf "$(tall_nodes 32 "06000000acfeffffa000000000000000")%.0s" {1..63})$(map -196 160)"
maps --lines 1 << END
         0         12 text    $(printf " '159%.0s" {1..64})
.. and 2050 more

nodes
                10176 int
                    1 text
                   64 ordered
                10241 in all
bytes
                   24 root
               393216 trees
                   12 texts
                    4 unused
               393256 in all
END
finish

# ---- what a stranger left

stored 'bytes that no field has, and some after the root' "$(with "$coffee" 188 aaaaaaaaaaaaaaaaaaaaaaaa)bbbbbbbbbbbbbb"
maps << 'END'
         0        176 tree
       176         24 root
       200          7 unused

nodes
                    2 int
                    1 ordered
                    3 in all
bytes
                   24 root
                  176 trees
                    7 unused
                  207 in all
END
finish

stored 'gaps before and between regions' "$(zeros 8)$five$(printf 'aa%.0s' {1..24})0400000001000000c8ffffff$(zeros 12)"
maps << 'END'
         0          8 unused
         8         24 node
        32         24 unused
        56         24 root

nodes
                    1 int
                    1 option
                    2 in all
bytes
                   24 root
                   24 nodes
                   32 unused
                   80 in all
END
finish

# ---- a number of lines

for most in 0 1 3 4 5 18446744073709551615; do
    stored "two shared texts, in at most $most lines" "$twice"
    {
        head -n "$most" << 'END'
         0         12 shared   #0
        12          4 unused
        16         48 elements
        64         24 root
END
        case $most in
            0 | 1 | 3) echo ".. and $((4 - most)) more" ;;
        esac
        cat << 'END'

nodes
                    2 shared
                    1 list
                    3 in all
bytes
                   24 root
                   48 elements
                   12 shared texts
                    4 unused
                   88 in all
END
    } > piped
    maps --lines "$most" < piped
    rm piped
    finish
done

# ---- a number of characters of paths

# cut MOST PATH: the path of the first line, of which that many characters are shown
cut_path() {
    built "ordered 1\n'a\xc3\xa9\\\\sb\nlist 1\nsome\nint 5"
    name="$name, of whose paths at most $1 characters are shown"
    show --map --lines 1 --path "$1" a.cab
    [ "$(head -n 1 output)" = "         0         24 node     $2" ] || differs "it printed $(head -c 200 output | tr '\n' '|')"
    ends 0 ''
    finish
}

cut_path 0 '..'
cut_path 1 "'.."
cut_path 2 "'a.."
cut_path 3 "'aé.."
cut_path 4 "'aé\\.."
cut_path 5 "'aé\\s.."
cut_path 6 "'aé\\sb.."
cut_path 7 "'aé\\sb .."
cut_path 8 "'aé\\sb #.."
cut_path 9 "'aé\\sb #0"
cut_path 18446744073709551615 "'aé\\sb #0"

# ---- words and faults

# unmapped STATUS FAULT WORD..: words of cab_show that end with a fault
unmapped() {
    begin "words of cab_show: ${*:3}"
    archive "$five"
    show "${@:3}"
    prints ''
    ends "$1" "$2"
    holds a.cab "$five"
    leaves a.cab
    finish
}

unmapped 1 'cab: cannot read --map\n' --map
unmapped 1 'cab: cannot read --lines\n' --map --lines
unmapped 1 'cab: cannot read b.cab\n' --map b.cab
unmapped 1 'cab: cannot read b.cab\n' --map --lines 5 b.cab
unmapped 2 "$show_usage" --map a.cab more
unmapped 2 "$show_usage" a.cab --map
unmapped 2 "$show_usage" --Map a.cab
unmapped 2 "$show_usage" -map a.cab
unmapped 2 "$show_usage" --lines 5
unmapped 2 "$show_usage" --lines 5 a.cab
unmapped 2 "$show_usage" --map --lines 5
unmapped 2 "$show_usage" --map --lines a.cab
unmapped 2 "$show_usage" --map --lines 5 a.cab more
unmapped 2 "$show_usage" --map --line 5 a.cab
unmapped 2 "$show_usage" --lines 5 --map a.cab
unmapped 2 "$show_usage" --map a.cab --lines 5
unmapped 2 "$show_usage" --map --map --lines 5 a.cab
unmapped 2 "$show_usage" --path 5 a.cab
unmapped 2 "$show_usage" --map --path 5
unmapped 2 "$show_usage" --map --path a.cab
unmapped 2 "$show_usage" --map --path 5 --lines 5 a.cab
unmapped 2 "$show_usage" --map --lines 5 --path 5
unmapped 2 "$show_usage" --map --lines 5 --lines 5 a.cab
unmapped 2 "$show_usage" --map --path 5 --path 5 a.cab
unmapped 2 "$show_usage" --map --lines 5 --path 5 a.cab more
unmapped 1 'cab: cannot read b.cab\n' --map --path 5 b.cab
unmapped 1 'cab: cannot read b.cab\n' --map --lines 5 --path 5 b.cab
for most in '' 05 00 -1 +1 5.0 x ' 5' '5 ' 18446744073709551616; do
    unmapped 2 "$show_usage" --map --lines "$most" a.cab
    unmapped 2 "$show_usage" --map --path "$most" a.cab
done
unmapped 2 "$show_usage" --map $'\xff.cab'

begin 'an archive named as a word of the command'
archive "$five"
cp a.cab ./--map
cp a.cab ./--lines
show --map
prints 'int 5\n'
ends 0 ''
for name in --map --lines; do
    show --map $name
    prints '         0         24 root\n\nnodes\n                    1 int\n                    1 in all\nbytes\n                   24 root\n                   24 in all\n'
    ends 0 ''
done
finish

# unmapped_bytes NAME HEX CAUSE: bytes that are no archive
unmapped_bytes() {
    begin "no map of $1"
    archive "$2"
    show --map a.cab
    prints ''
    ends 1 "cab: open: $3\n"
    holds a.cab "$2"
    leaves a.cab
    finish
}

unmapped_bytes 'no bytes' '' Access
unmapped_bytes 'a tag that is none' "${five/01/0a}" Access
unmapped_bytes 'an option in itself' "${some/e0/f8}" Access
unmapped_bytes '65 options' "$five$(printf "$some%.0s" {1..65})" TooDeep
unmapped_bytes 'keys that descend' "$(leaf b 1 a 2)$(map -180 2)" KeysNotAscending

for output in /dev/full closed; do
    begin "the map is not printed: $output"
    archive "$five"
    if [ $output = closed ]; then
        "$show" --map a.cab < input >&- 2> errors
    else
        "$show" --map a.cab < input > $output 2> errors
    fi
    ended=$?
    ends 1 'cab: cannot write -\n'
    holds a.cab "$five"
    finish
done

# the check takes none for the document, and the map none at all
begin 'a map takes no memory for the document'
yes none | head -n 1000000 | sed '1i list 1000000' > text
run build text a.cab
(ulimit -v 45000 && "$show" --map --lines 1 a.cab < input > output 2> errors)
ended=$?
[ "$(head -n 2 output)" = $'         0   24000000 elements\n.. and 1 more' ] || differs "it printed $(head -c 200 output | tr '\n' '|')"
ends 0 ''
finish

begin 'a map takes no memory for the regions'
{ echo list 400000; yes "some\nint 1" | head -n 400000 | sed 's/\\n/\n/'; } > text
run build text a.cab
(ulimit -v 45000 && "$show" --map --lines 1 a.cab < input > output 2> errors)
ended=$?
[ "$(head -n 2 output)" = $'         0         24 node     #0\n.. and 400001 more' ] || differs "it printed $(head -c 200 output | tr '\n' '|')"
ends 0 ''
finish

begin 'the map of a list of 200,000 options'
{ echo list 200000; yes "some\nint 1" | head -n 200000 | sed 's/\\n/\n/'; } > text
run build text a.cab
show --map a.cab
[ "$(wc -l < output)" = 200013 ] || differs "it printed $(wc -l < output) lines"
sed -n '1p;200000p;200001p;200002p' output | cmp -s - <(printf '%10d %10d %-8s %s\n' 0 24 node '#0' 4799976 24 node '#199999' && printf '%10d %10d %s\n' 4800000 4800000 elements 9600000 24 root) ||
    differs "it printed $(sed -n '1p;200000p;200001p;200002p' output | tr '\n' '|')"
ends 0 ''
finish
