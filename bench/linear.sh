#!/usr/bin/env bash
# Counts the instructions that `gclc svg` and `gclc latex` take for files of 5,000, 10,000 and 20,000 commands, and what each
# further command costs. The files have every command: 70 blocks that construct 980 points, and then commands that draw.
# Doubling the file about doubles the count: nothing is quadratic in names, tokens or output.
set -eu
top=$(cd "$(dirname "$0")/.." && pwd)
"$top/gclc" svg "$top/examples/segment.gcl" >/dev/null
program=$top/crates/gclc/out/gclc
command -v valgrind >/dev/null || { echo "linear.sh: valgrind is not here" >&2; exit 1; }
work=$(mktemp -d)
trap 'rm -rf "$work"' EXIT

make_file() {
    awk -v commands="$1" '
        function say(line) { print line; said++ }
        function block(i) {
            say("point A" i " " 10 + i % 7 " " 10 + i % 5)
            say("point B" i " " 50 + i % 11 ".5 " 12)
            say("point C" i " 30 " 45 + i % 13)
            say("line a" i " A" i " B" i)
            say("line b" i " B" i " C" i)
            say("med m" i " A" i " B" i)
            say("perp p" i " C" i " a" i)
            say("parallel q" i " C" i " a" i)
            say("circle k" i " A" i " B" i)
            say("circle h" i " B" i " A" i)
            say("midpoint M" i " A" i " B" i)
            say("intersec X" i " m" i " b" i)
            say("foot F" i " C" i " a" i)
            say("online O" i " A" i " B" i)
            say("oncircle K" i " A" i " B" i)
            say("translate T" i " A" i " B" i " C" i)
            say("towards W" i " A" i " B" i " 0.25")
            say("intersec2 Y" i " Z" i " k" i " h" i)
            say("intersec2 U" i " V" i " k" i " a" i)
        }
        BEGIN {
            blocks = 70
            say("dim 90 70")
            for (i = 0; i < blocks; i++) block(i)
            shapes = split("drawpoint M;drawsegment A B;drawdashsegment B C;drawline p;drawline q;drawcircle h;cmark X;" \
                "cmark_t F;cmark_b O;cmark_l K;cmark_r T;mark W;mark_lt Y;mark_lb Z;mark_rt U;mark_rb V", shape, ";")
            for (i = 0; said < commands; i++) {
                b = int(i / shapes) % blocks
                if (i % shapes == 0) say("color " i % 256 " 0 " b)
                line = shape[i % shapes + 1] b
                if (split(line, word, " ") == 3) line = word[1] " " word[2] b " " word[3]
                say(line)
            }
        }'
}

printf '| form | commands | bytes | instructions | instructions a command |\n|---|---|---|---|---|\n'
for form in svg latex; do
    for commands in 5000 10000 20000; do
        make_file "$commands" >"$work/$commands.gcl"
        valgrind --tool=callgrind --callgrind-out-file="$work/callgrind" "$program" "$form" "$work/$commands.gcl" \
            >"$work/text" 2>"$work/log"
        count=$(sed -n 's/.*Collected : \([0-9]*\).*/\1/p' "$work/log")
        printf '| `%s` | %s | %s | %s | %s |\n' "$form" "$commands" "$(wc -c <"$work/$commands.gcl")" "$count" \
            "$((count / commands))"
    done
done
