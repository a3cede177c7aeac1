#!/bin/sh
# Counts the looks a second of readers beside one builder, and what they cost it: bench/looks.sh [PROGRAM]
# PROGRAM is the program `watcher`, by default crates/watcher/out/watcher, which `rt run` builds in crates/watcher.
# The builder makes 50,000 versions, and its times are the least of five runs each. The looks are those of the run in which it was
# fastest beside the readers.
here=$(cd "$(dirname "$0")/.." && pwd) || exit 1
program=${1:-$here/crates/watcher/out/watcher}
if [ ! -x "$program" ]; then
    echo "looks: $program is not there; run rt run in crates/watcher" >&2
    exit 1
fi
for readers in 1 2 4; do
    for run in 1 2 3 4 5; do
        "$program" looks "$readers" || exit 1
    done | awk -v readers="$readers" '
        $1 == "builder" {
            if (!alone || $2 < alone) alone = $2
            best = !beside || $5 < beside
            if (best) { beside = $5; looks = "" }
        }
        $1 == "reader" && best {
            looks = looks sprintf("; %.1f million looks a second", $2 / beside)
        }
        END { printf "%d readers: the builder takes %.0f ms alone, %.0f ms beside them%s\n", readers, alone / 1000, beside / 1000, looks }'
done
