#!/usr/bin/env bash
# Tells whether the figures and pictures that the table of runs tests are those that stand in examples/ and docs/, and whether
# the manual and the tutorial show the files that are tested. Each difference is named; the status is 1 where there is one.
set -u
top=$(cd "$(dirname "${BASH_SOURCE[0]}")/../.." && pwd) || exit 1
data=$top/crates/runs/data
bad=0

differs() {
    echo "$1" >&2
    bad=1
}

for figure in "$top"/examples/*.gcl "$data"/examples/*.gcl; do
    name=$(basename "$figure")
    cmp -s "$top/examples/$name" "$data/examples/$name" || differs "examples/$name is not its copy in crates/runs/data"
done

for picture in "$top"/docs/pictures/*.svg "$data"/pictures/*.svg; do
    name=$(basename "$picture")
    cmp -s "$top/docs/pictures/$name" "$data/pictures/$name" || differs "docs/pictures/$name is not its copy in crates/runs/data"
done

# Tells whether a document has the whole text of a file.
shows() {
    [[ $(cat "$1") == *"$(cat "$2")"* ]] || differs "$(basename "$1") does not show $(basename "$2")"
}

for figure in "$data"/commands/*.gcl; do shows "$top/docs/LANGUAGE.md" "$figure"; done
for figure in "$data"/tutorial/*.gcl; do shows "$top/docs/TUTORIAL.md" "$figure"; done

for figure in "$data"/{examples,commands,tutorial}/*.gcl; do
    folder=$(basename "$(dirname "$figure")")
    name=$(basename "$figure" .gcl)
    grep -qx "from $folder/$name.gcl" "$data/runs.txt" || differs "the table of runs has no row for $folder/$name.gcl"
    [ -f "$data/pictures/$name.svg" ] || differs "$folder/$name.gcl has no picture"
done
exit $bad
