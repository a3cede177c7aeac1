#!/bin/sh
# What is dear to prove in a crate: its functions by the size of what `rt check` kept of their steps, in MB, the largest first.
#   bench/dear.sh CRATE [HOW MANY]    after `rt check` in crates/CRATE
# A function has about 1 MB, and each `?` or early return 0.6 to 0.8 MB with what is dropped there. Processor seconds go with it.
cd "$(dirname "$0")/.." || exit 1
kept="crates/$1/out/incremental"
[ -d "$kept" ] || { echo "no work is kept in $kept: run rt check in crates/$1 first" >&2; exit 1; }
find "$kept" -name '*.Lts.oantt' -printf '%T@ %s %f\n' | sort -n | awk -v crate="$1" '
    { name = $3; sub("^Rattle-" crate "-proofs\\.", "", name); sub("\\.Lts\\.oantt$", "", name); size[name] = $2 }
    END { for (name in size) printf "%.1f %s\n", size[name] / 1e6, name }' | sort -rn | head -n "${2:-20}"
