# For the tests: leaves a test out where a tool is not here, and ends it where something is not so.

need() {
    for tool; do
        command -v "$tool" >/dev/null || { echo "$tool is not here"; exit 77; }
    done
}

need_program() {
    [ -x "$GCLC" ] || { echo "the program is not built"; exit 77; }
}

fail() {
    echo "$*"
    exit 1
}

# The forms of the usage line, one on each line.
forms() {
    sed 's/^usage: gclc //; s/, /\n/g' "$top/crates/runs/data/usage.txt"
}
