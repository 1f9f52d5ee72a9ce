#!/usr/bin/env bash
# Compares the wall times that `gclc prove FILE --workers N` takes with one worker and with two, for a figure that it makes and for
# figures of the gallery, whose trees are wide: the best of five runs each, taken in turn. Workers share the branches of one tree, so the nodes of the widest
# tree bound what a second worker can gain. Each log must be that of `gclc prove FILE`. Wall times depend on what else the
# machine is doing.
set -eu
export LC_ALL=C
top=$(cd "$(dirname "$0")/.." && pwd)
"$top/gclc" svg "$top/examples/segment.gcl" >/dev/null
program=$top/crates/gclc/out/gclc
work=$(mktemp -d)
trap 'rm -rf "$work"' EXIT

# The microseconds of one run by so many workers.
run_time() {
    local start=${EPOCHREALTIME/./}
    "$program" prove "$1" --workers "$2" >"$work/log" 2>"$work/notes" || true
    local end=${EPOCHREALTIME/./}
    cmp -s "$work/log" "$work/alone" || { echo "workers.sh: $2 workers write another log of $1" >&2; exit 1; }
    echo $((end - start))
}

compare() {
    "$program" prove "$1" >"$work/alone" 2>"$work/notes" || true
    local one two took
    one=$(run_time "$1" 1)
    two=$(run_time "$1" 2)
    for _ in 2 3 4 5; do
        took=$(run_time "$1" 1)
        one=$((took < one ? took : one))
        took=$(run_time "$1" 2)
        two=$((took < two ? took : two))
    done
    awk -v name="$(basename "$1" .gcl)" -v one="$one" -v two="$two" '
        /^node / { nodes++; if (++tree > widest) widest = tree }
        /^prove / { tree = 0 }
        END { printf "| %s | %d | %d | %.3f s | %.3f s | %.2f |\n", name, nodes, widest, one / 1e6, two / 1e6, one / two }
    ' "$work/alone"
}

# Two triangles in perspective, whose sides meet on a line: a tree of some hundred nodes.
make_wide() {
    printf 'point S 36 83\npoint A 9 13\npoint B 119 68\npoint C 85 37\n'
    for corner in C A B; do printf "online %s' S %s\n" "$corner" "$corner"; done
    set -- B C A B
    for meet in X Y Z; do
        printf "line %s %s %s\nline %s' %s' %s'\nintersec %s %s %s'\n" \
            "l$meet" "$1" "$2" "l$meet" "$1" "$2" "$meet" "l$meet" "l$meet"
        shift
    done
    printf 'prove { collinear X Y Z }\n'
}

printf '| figure | nodes | in the widest tree | one worker | two workers | ratio |\n|---|---|---|---|---|---|\n'
make_wide >"$work/wide.gcl"
compare "$work/wide.gcl"
for name in simson euler nine_points radical_centre pappus; do
    compare "$top/examples/$name.gcl"
done
