#!/usr/bin/env bash
# Counts the instructions that `gclc prove` takes for figures of growing size and for the theorems of examples/, and how many of
# them go into the work on nodes (`expand`) and into the text of the log's lines. A chain of midpoints is one node whose
# equations grow with the chain.
set -eu
top=$(cd "$(dirname "$0")/.." && pwd)
"$top/gclc" svg "$top/examples/segment.gcl" >/dev/null
program=$top/crates/gclc/out/gclc
command -v valgrind >/dev/null || { echo "prove.sh: valgrind is not here" >&2; exit 1; }
work=$(mktemp -d)
trap 'rm -rf "$work"' EXIT

# A chain of midpoints: each between the one before and a corner.
make_chain() {
    printf 'point A 0 0\npoint B 10 0\npoint C 3 7\nmidpoint M1 A B\n'
    for ((i = 2; i <= $1; i++)); do printf 'midpoint M%d M%d C\n' "$i" "$((i - 1))"; done
    printf 'prove { collinear M1 M%d C }\n' "$1"
}

# The instructions of the function that matches, with what it calls.
within() {
    callgrind_annotate --inclusive=yes --threshold=100 "$work/out" 2>/dev/null |
        awk -v name="$1" '$0 ~ name { gsub(",", "", $1); if ($1 + 0 > n) n = $1 + 0 } END { print n + 0 }'
}

count() {
    valgrind --tool=callgrind --callgrind-out-file="$work/out" "$program" prove "$2" >"$work/log" 2>"$work/notes" || true
    total=$(awk '/^(summary|totals):/ { n = $2 } END { print n }' "$work/out")
    awk -v name="$1" -v bytes="$(wc -c <"$work/log")" -v total="$total" -v node="$(within 'expanding::expand')" \
        -v text="$(within 'line_writing::write_row')" 'BEGIN {
            printf "| %s | %d | %d | %d | %.0f %% |\n", name, bytes, total, node, 100 * text / total
        }'
}

printf '| figure | bytes of the log | instructions | in `expand` | in the text |\n|---|---|---|---|---|\n'
for n in 4 8 16; do
    make_chain "$n" >"$work/chain"
    count "chain of $n midpoints" "$work/chain"
done
for name in thales midlines varignon centroid orthocentre circumscribed simson tangents napoleon euler; do
    count "$name" "$top/examples/$name.gcl"
done
