# Reads the lines for figures of one document and one action, which bench/peers.sh and its programs print, and prints the
# row of them, after a heading for what is timed if that is not what the variable told says.

BEGIN {
    columns["program"] = "cab sqlite3 jq"
    columns["process"] = "cabinet rkyv FlatBuffers SQLite"
    columns["typed"] = "cabinet rkyv std std,_same_hash"
    columns["bytes"] = "cab rkyv FlatBuffers sqlite3 JSON"
    heading["program"] = "Programs, from a file to a file: question and edit are opening and all questions or edits."
    heading["process"] = "In a process: question and edit are one of them. cabinet builds from the document's text, and" \
        "\nreads lines and spells answers; the others build from plain values, and neither read nor spell."
    heading["typed"] = "In a process, of types that the program knows, without documents and lines: a question is" \
        "\none look-up, and open and write are one entry."
    heading["bytes"] = "Sizes of files: those of rkyv and FlatBuffers are of the bytes in memory."
}

# ---- goals

function entries(document,    words) {
    split(document, words, " ")
    return words[2]
}

# Returns the goal of the ratio to a peer, or nothing.
function goal(what, document, action, peer) {
    if (what == "program" && action == "build") return peer == "sqlite3" ? "0.8" : "0.4"
    if (what == "program" && action == "question" && peer == "sqlite3") return "0.12"
    if (action == "open" && peer == "rkyv") return "1.0"
    if (what == "typed" && action == "question" && document ~ /^hashed/ && peer == "rkyv") return "0.7"
    if (what == "typed" && action == "question" && document ~ /^ordered/ && entries(document) >= 100000 && peer == "std")
        return "1.0"
    return ""
}

# ---- rows

function spelled(figure, unit) {
    if (unit == "bytes") return sprintf("%.2f MB", figure / 1e6)
    if (unit == "s") return sprintf("%.3f s", figure)
    return sprintf("%.2f %s", figure, unit)
}

# Prints the heading of what is timed.
function print_heading(what,    peers, count, i) {
    count = split(columns[what], peers, " ")
    printf "\n%s\n%-24s%-10s", heading[what], "", ""
    for (i = 1; i <= count; i++) {
        gsub("_", " ", peers[i])
        printf "%16s%s", peers[i], i == 1 ? "" : sprintf("%13s", "ratio")
    }
    print ""
}

# Prints the row of what, document and action. The arrays at and unit have the figures and units of peers.
function print_row(what, document, action,    peers, count, i, peer, first, wanted, ratio) {
    count = split(columns[what], peers, " ")
    printf "%-24s%-10s", document, action
    for (i = 1; i <= count; i++) {
        peer = peers[i]
        gsub("_", " ", peer)
        printf "%16s", (peer in at) ? spelled(at[peer], unit[peer]) : "-"
        if (i == 1) {
            first = peer
            continue
        }
        wanted = goal(what, document, action, peer)
        ratio = "-"
        if ((peer in at) && (first in at) && at[peer] > 0) {
            ratio = sprintf("%.2f", at[first] / at[peer]) (wanted == "" ? "" : " (" wanted ")")
        }
        printf "%13s", ratio
    }
    print ""
}

{
    what = $1
    document = $2
    action = $3
    at[$4] = $5
    unit[$4] = $6
}

END {
    if (what != told) print_heading(what)
    print_row(what, document, action)
}
