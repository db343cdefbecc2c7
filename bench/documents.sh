# Sourced by the scripts that compare programs on documents of many leaves: the documents as texts, as JSON and as rows of
# tables, and lines about them.
# A document of the kind ordered, hashed or kept is one map, whose pairs are the same in each of the three: keys that
# ascend, and a number or a text for each. A document of the kind records is a list of ordered maps, each of five leaves.

# text_of KIND LEAVES: prints the text of a document
text_of() {
    awk -v kind="$1" -v leaves="$2" 'BEGIN {
        fields = 5
        if (kind != "records") {
            print kind, leaves
            for (i = 1; i <= leaves; i++)
                printf "'\''key%07d\n%s\n", i, i % 2 ? "int " i : "text '\''value\\snumber\\s" i
            exit
        }
        print "list", leaves / fields
        for (i = fields; i <= leaves; i += fields)
            printf "ordered 5\n'\''active\nbool true\n'\''id\nint %d\n'\''mail\ntext '\''user%d@example.org\n" \
                "'\''name\ntext '\''user\\s%d\n'\''score\nint %d\n", i, i, i, i * 7919 % 1000
    }'
}

# json_of KIND LEAVES: prints the same document as JSON
json_of() {
    awk -v kind="$1" -v leaves="$2" 'BEGIN {
        fields = 5
        if (kind != "records") {
            for (i = 1; i <= leaves; i++)
                printf "%s\"key%07d\":%s", i == 1 ? "{" : ",", i, i % 2 ? i : "\"value number " i "\""
            print "}"
            exit
        }
        for (i = fields; i <= leaves; i += fields)
            printf "%s{\"active\":true,\"id\":%d,\"mail\":\"user%d@example.org\",\"name\":\"user %d\",\"score\":%d}", \
                i == fields ? "[" : ",", i, i, i, i * 7919 % 1000
        print "]"
    }'
}

# rows_of KIND LEAVES: prints a row for each pair of the document, the fields apart by tabulators: of a map the key and
# the value, of the records the number of the record, counted from 0, the five leaves
rows_of() {
    awk -v kind="$1" -v leaves="$2" 'BEGIN {
        fields = 5
        if (kind != "records") {
            for (i = 1; i <= leaves; i++)
                printf "key%07d\t%s\n", i, i % 2 ? i : "value number " i
            exit
        }
        for (i = fields; i <= leaves; i += fields)
            printf "%d\ttrue\t%d\tuser%d@example.org\tuser %d\t%d\n", i / fields - 1, i, i, i, i * 7919 % 1000
    }'
}

# write_lines LEAVES COUNT: writes, for one map and for records of so many leaves, COUNT lines that ask and as many that
# edit, at places in no order: the files map.get, map.set, records.get and records.set
write_lines() {
    awk -v leaves="$1" -v count="$2" 'BEGIN {
        split("active id mail name score", fields, " ")
        records = leaves / 5
        for (i = 1; i <= count; i++) {
            place = i * 7919 % leaves
            record = place % records
            print "get '\''" sprintf("key%07d", place + 1) > "map.get"
            print "set int " i " '\''" sprintf("key%07d", place - place % 2 + 1) > "map.set"
            print "get #" record " '\''" fields[int(place / records) + 1] > "records.get"
            print "set int " i " #" record " '\''score" > "records.set"
        }
    }'
}

# paths: prints the paths of lines that ask for keys or for fields of records as JSON
paths() {
    sed "s/^get '\(.*\)$/[\"\1\"]/; s/^get #\([0-9]*\) '\(.*\)$/[\1,\"\2\"]/" "$@"
}

# statements: prints statements that request the same as lines about keys, on the table leaves of keys and values, or as
# lines about fields of records, on the table leaves of numbers of records, keys and values
statements() {
    sed "s/^get '\(.*\)$/select value from leaves where key = '\1';/
        s/^get #\([0-9]*\) '\(.*\)$/select value from leaves where record = \1 and key = '\2';/
        s/^set int \([0-9]*\) '\(.*\)$/update leaves set value = \1 where key = '\2';/
        s/^set int \([0-9]*\) #\([0-9]*\) '\(.*\)$/update leaves set value = \1 where record = \2 and key = '\3';/" "$@"
}

# heads: prints the values in answers of cab as jq and sqlite3 print them
heads() {
    sed "s/^[a-z]* '*//; s/\\\\s/ /g" "$@"
}
