#!/bin/sh
# Draws calls on the core by lot, looks after each of them whether every ask is answered by what its key has come to from nothing, and
# tells of each lot whether all were. Nothing is proved; not a part of the gate.
#   bench/random.sh              20 lots of 50,000 calls
#   bench/random.sh LOTS CALLS   so many
here=$(cd "$(dirname "$0")/.." && pwd) || exit 1
work=$(mktemp -d) || exit 1
trap 'rm -rf "$work"' EXIT
lots=${1:-20}
calls=${2:-50000}
mkdir "$work/crates" && cp "$here/crates.txt" "$here/HANDLES" "$work" || exit 1
for crate in "$here"/crates/*; do
    name=$(basename "$crate")
    mkdir "$work/crates/$name" || exit 1
    for part in src specs proofs; do
        [ -d "$crate/$part" ] && cp -r "$crate/$part" "$work/crates/$name"
    done
done
cd "$work/crates/core_tests" || exit 1
printf '//! Calls that are drawn by lot.\n#![tactic(auto)]\n\n#[cfg(test)]\nmod random;\n' >src/lib.rt
rm -f src/bench.rt src/buck.rt src/tiny.rt
cp src/random.rt "$work/random.rt"
bad=0
lot=1
while [ "$lot" -le "$lots" ]; do
    sed "s/^const CALLS: u32 = .*/const CALLS: u32 = $calls;/; s/^const LOT: u64 = .*/const LOT: u64 = $lot;/" "$work/random.rt" >src/random.rt
    if rt try --test --seconds 900 >"$work/said" 2>&1; then
        echo "lot $lot: $calls calls, all answers right"
    else
        echo "lot $lot: $calls calls, a difference or no answer"
        grep -v '^races' "$work/said" | head -20
        bad=1
    fi
    lot=$((lot + 1))
done
exit $bad
