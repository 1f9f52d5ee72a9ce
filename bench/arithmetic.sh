#!/usr/bin/env bash
# Counts the instructions of a sum, a product and a division of one step over a store that grows, for operands of more and
# more terms: what two runs of an operation take beyond one, with the copies of its operands into the store and of its result
# out of it. Counts by pair of terms stay flat: each row of a product is merged once into the sorted sum of the rows before.
set -eu
top=$(cd "$(dirname "$0")/.." && pwd)
command -v valgrind >/dev/null || { echo "arithmetic.sh: valgrind is not here" >&2; exit 1; }
program=$top/crates/runs/out/runs
[ -x "$program" ] || (cd "$top/crates/runs" && rt run >/dev/null)
work=$(mktemp -d)
trap 'rm -rf "$work"' EXIT

# The instructions of an operation on operands of this width, done so many times.
count() {
    valgrind --tool=callgrind --callgrind-out-file="$work/callgrind" "$program" "$1" "$2" "$3" >"$work/text" 2>"$work/log"
    sed -n 's/.*Collected : \([0-9]*\).*/\1/p' "$work/log"
}

# A row: the operation, its width, and the terms of its operands and of the pairs that are added or multiplied.
row() {
    local once twice
    once=$(count "$1" "$2" 1)
    twice=$(count "$1" "$2" 2)
    printf '| %s | %s | %s | %s | %s |\n' "$1" "$3" "$(sed 's/ terms//' "$work/text")" "$((twice - once))" \
        "$(((twice - once) / $4))"
}

printf '| operation | terms of each operand | of the result | instructions | by pair of terms |\n|---|---|---|---|---|\n'
for width in 4 8 16 32; do row add "$width" "$((width * width))" "$((width * width))"; done
for width in 4 8 16 22; do row mul "$width" "$((width * width))" "$((width * width * width * width))"; done
for width in 4 8 12 16; do row red "$width" "$((2 * width * width))" "$((4 * width * width * width * width))"; done
