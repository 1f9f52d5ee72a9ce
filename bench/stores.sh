#!/usr/bin/env bash
# Compares the two stores of terms.
#   stores.sh products   the instructions of a product over the region and over the store that grows, and how often the region
#                        moved its lists down in it
#   stores.sh proofs     the instructions that the proofs of a file take over either, and the time and memory of the smallest file:
#                        both programs are proved and built over a copy of the crates, in which for the second a prover's room is
#                        the store that grows; that takes some minutes
set -eu
export LC_ALL=C
top=$(cd "$(dirname "$0")/.." && pwd)
for tool in valgrind /usr/bin/time; do
    command -v "$tool" >/dev/null || { echo "stores.sh: $tool is not here" >&2; exit 1; }
done
work=$(mktemp -d)
trap 'rm -rf "$work"' EXIT

# Runs a program under callgrind, and gives its instructions.
count() {
    valgrind --tool=callgrind --callgrind-out-file="$work/callgrind" "$@" >"$work/text" 2>"$work/log"
    sed -n 's/.*Collected : \([0-9]*\).*/\1/p' "$work/log"
}

# How often the region moved its lists down in the last counted run.
moves() {
    awk '/^c?fn=\(/ { split($0, half, "="); id = half[2]; sub(/ .*/, "", id)
                      if (index(half[2], " ")) name[id] = half[2]
                      if ($0 ~ /^cfn=/) called = id }
         /^calls=/ { if (name[called] ~ /moving.*compact/) { split($1, n, "="); sum += n[2] } }
         END { print sum + 0 }' "$work/callgrind"
}

# The instructions of a product of squares of so many monomials in a row, without those of the start of the program.
product() {
    local once twice
    once=$(count "$program" "$@" 1)
    before=$(moves)
    twice=$(count "$program" "$@" 2)
    echo "$((twice - once)) $(($(moves) - before))"
}

products() {
    program=$top/crates/runs/out/runs
    [ -x "$program" ] || (cd "$top/crates/runs" && rt run >/dev/null)
    local width region moved terms growing pairs
    printf '| terms of each operand | live terms at the end | moves of the lists | instructions | by pair of terms | over the growing store |\n'
    printf '|---|---|---|---|---|---|\n'
    for width in 4 8 16 22; do
        read -r region moved <<<"$(product region mul "$width")"
        terms=$(sed 's/ terms//' "$work/text")
        read -r growing _ <<<"$(product mul "$width")"
        pairs=$((width * width * width * width))
        printf '| %d | %d | %d | %d | %d | %d |\n' "$((width * width))" "$((2 * width * width + terms))" "$moved" "$region" \
            "$((region / pairs))" "$((growing / pairs))"
    done
}

# The crates of these names, and all that they stand on.
below() {
    local names= more=$*
    while [ "$more" != "$names" ]; do
        names=$more
        more=$(for name in $names; do echo "$name $(sed -n "s/^$name://p" "$top/crates.txt")"; done | tr ' ' '\n' | sort -u |
            grep -xFf <(cut -d: -f1 "$top/crates.txt"))
    done
    echo "$names"
}

# A program that proves the statements of a file, and tells how many there are, beside copies of the crates that it stands on.
make_program() {
    mkdir -p "$1/crates/prover/src"
    cp "$top/HANDLES" "$1"
    for name in $(below prove_run gcl_names gcl_reader); do
        (cd "$top/crates" && tar -cf - --exclude="$name/out" --exclude="$name/must-fail" "$name") | tar -xf - -C "$1/crates"
        grep "^$name:" "$top/crates.txt" >>"$1/crates.txt"
    done
    cat >"$1/crates/prover/src/main.rt" <<'RT'
//! Proves the statements of a file.
#![tactic(auto)]

use anyhow::{Result, bail};
use gcl_names::resolve;
use gcl_reader::{MOST_BYTES, read};
use prove_run::prove_one;
use std::{env, fs};

fn main(rt: HostRuntime) -> Result<()> {
    let alloc = rt.alloc();
    let words: Vec<String> = env::args(&rt)?.skip(1).collect(alloc)?;
    let [name] = words.as_slice() else {
        return Ok(());
    };
    let bytes = fs::read(&rt, name.as_str())?;
    if bytes.len() as u64 > MOST_BYTES {
        bail!("it is too large")
    }
    let Ok(file) = read(alloc, &bytes) else {
        bail!("it is no file")
    };
    let Ok(program) = resolve(alloc, &file) else {
        bail!("its names are wrong")
    };
    let Ok(log) = prove_one(alloc, &program) else {
        bail!("it has no log")
    };
    let count = log.proofs.as_slice().len();
    println!(rt; "{count} proofs")?;
    Ok(())
}
RT
    echo 'prover: prove_run gcl_names gcl_reader anyhow' >>"$1/crates.txt"
}

# In a copy, a prover's room is the store that grows.
let_grow() {
    local crate=$1/crates/prove_run
    cat >"$crate/src/room.rt" <<'RT'
ghost use Rattle.std.specs.Prelude.{◌≤◌, IfOk};
ghost use Rattle.poly_model.specs.declared.limits.TheConstants.{EXPAND_UNITS};
ghost use Rattle.term_store.specs.Holding.{held_by};

use poly_model::EXPAND_UNITS;
use std::alloc::{AllocError, Global};
use term_store::{TermStore, VecStore};

/// A store that keeps its room for the work on a node.
#[derive(Drop)]
pub struct Room {
    pub store: VecStore,
    ghost enough: { EXPAND_UNITS ≤ (held_by store).spare },
}

impl Room {
    pub fn new(alloc: Global) -> Result<Room, AllocError> {
        Ok(Room {
            store: roomy_store(alloc)?,
        })
    }
}

/// A store with room for the work on a node.
pub fn roomy_store(alloc: Global) -> Result<VecStore, AllocError>
    ensures { IfOk result (λ s. EXPAND_UNITS ≤ (held_by s).spare) }
{
    let mut store = VecStore::new(alloc)?;
    match store.reserve(EXPAND_UNITS) {
        Ok(()) => Ok(store),
        Err(_) => Err(AllocError),
    }
}
RT
    sed -i -e 's/TermRegion::open(alloc, EXPAND_UNITS)?/roomy_store(alloc)?/' -e '/^use term_region::TermRegion;$/d' \
        -e 's/^use crate::growing::grow;$/&\nuse crate::room::roomy_store;/' -e 's/{EXPAND_UNITS, MOST_FUEL, OwnedPoly, Row}/{MOST_FUEL, OwnedPoly, Row}/' \
        "$crate/src/proving.rt"
    sed -i 's/Rattle.term_region.specs.Holding/Rattle.term_store.specs.Holding/' "$crate/proofs/proving/prove_all/Invariants.antt"
}

# A chain of midpoints: each between the one before and a corner.
make_chain() {
    printf 'point A 0 0\npoint B 10 0\npoint C 3 7\nmidpoint M1 A B\n'
    for ((i = 2; i <= $1; i++)); do printf 'midpoint M%d M%d C\n' "$i" "$((i - 1))"; done
    printf 'prove { collinear M1 M%d C }\n' "$1"
}

compare() {
    local region growing moved
    region=$(count "$work/region" "$2")
    moved=$(moves)
    growing=$(count "$work/growing" "$2")
    printf '| %s | %d | %d | %d | %.3f |\n' "$1" "$moved" "$region" "$growing" "$(echo "$region / $growing" | bc -l)"
}

# The least time of a hundred runs, and the middle of the most memory of five.
cost() {
    local least=99999999 start end
    for _ in {1..100}; do
        start=${EPOCHREALTIME/./}
        "$1" "$2" >/dev/null
        end=${EPOCHREALTIME/./}
        least=$((end - start < least ? end - start : least))
    done
    echo "$least microseconds, $(for _ in 1 2 3 4 5; do /usr/bin/time -f %M "$1" "$2" 2>&1 >/dev/null; done | sort -n | sed -n 3p) kB"
}

proofs() {
    for store in region growing; do
        make_program "$work/$store.copy"
        [ "$store" = region ] || let_grow "$work/$store.copy"
        (cd "$work/$store.copy" && rt ci >"$work/built" 2>&1) || { tail -n 20 "$work/built" >&2; exit 1; }
        cp "$work/$store.copy/crates/prover/out/prover" "$work/$store"
        rm -rf "$work/$store.copy"
    done
    printf '| figure | moves of the lists | over the region | over the growing store | ratio |\n|---|---|---|---|---|\n'
    for n in 4 8 16; do
        make_chain "$n" >"$work/chain"
        compare "chain of $n midpoints" "$work/chain"
    done
    for name in thales midlines varignon centroid orthocentre circumscribed simson tangents napoleon euler nine_points desargues \
        butterfly; do
        compare "$name" "$top/examples/$name.gcl"
    done
    for name in thales euler; do
        echo "$name over the region: $(cost "$work/region" "$top/examples/$name.gcl")"
        echo "$name over the growing store: $(cost "$work/growing" "$top/examples/$name.gcl")"
    done
}

case ${1:-} in
products | proofs) "$1" ;;
*) echo "stores.sh: products or proofs" >&2; exit 1 ;;
esac
