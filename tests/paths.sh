#!/usr/bin/env bash
# Counts the crates that crates.txt lists, and the paths that lead through it: from each crate by the names on its line
# to each crate below, once for each way. The merge gate works along these paths, so more of them make it longer.
set -u
cd "$(dirname "$0")/.." || exit 1
awk -v most_crates=52 -v most_paths=93000 '
function paths(name,    found, of, count, i) {
    if (name in known) return known[name]
    found = 1
    count = split(below[name], of, " ")
    for (i = 1; i <= count; i++) if (of[i] in below) found += paths(of[i])
    return known[name] = found
}
{ sub(/#.*/, "") }
/[^ ]/ { split($0, parts, ":"); split(parts[1], words, " "); below[words[1]] = parts[2]; crates++ }
END {
    for (name in below) all += paths(name)
    printf "%d crates (at most %d), %d paths (at most %d)\n", crates, most_crates, all, most_paths
    exit !(crates <= most_crates && all <= most_paths)
}' crates.txt
