#!/bin/sh
# The gate's time by crate.
#   bench/gate.sh run LOG [rt ci's words]   runs `rt ci` here and writes LOG: what it prints, and a line a second for each process that it runs
#   bench/gate.sh LOG                       reads such a log and prints the table, in processor seconds
# proof: the check of the crate, and the library made of it. tests: the check of its tests, and their compilation. seed: the check that the
# must-fail edits begin with, and the one that looks at it again. edits: one check for each of them.
if [ "$1" = run ]; then
    log=$2
    shift 2
    : >"$log"
    (rt ci "$@" 2>&1; echo "gate: ended with status $?") | sed -u "s/^/| /" >>"$log" &
    python3 - "$log" <<'PYTHON'
import os, re, sys, time
log, ticks, begun = sys.argv[1], os.sysconf("SC_CLK_TCK"), time.time()
def read(path):
    try:
        with open(path, errors="replace") as it: return it.read()
    except OSError: return ""
def is_ours(pid, above):
    while pid in above:
        if above[pid][1]: return True
        pid = above[pid][0]
    return False
while True:
    above, found = {}, []
    for pid in filter(str.isdigit, os.listdir("/proc")):
        stat, words = read(f"/proc/{pid}/stat"), read(f"/proc/{pid}/cmdline").split("\0")
        if not stat or not words[0]: continue
        rest = stat[stat.rindex(")") + 2 :].split()
        above[pid] = rest[1], len(words) > 2 and words[1].endswith("/rt") and words[2] == "ci"
        try: at = os.readlink(f"/proc/{pid}/cwd")
        except OSError: continue
        name = words[words.index("--crate-name") + 1] if "--crate-name" in words else ""
        kept = words[words.index("--incremental") + 1] if "--incremental" in words else ""
        inside = re.search(r"/crates/(\w+)", at)
        name = name or (inside[1] if inside else "")
        if not name or "python" in words[0]: continue
        kind = ("seed" if kept.endswith("/seed") else "edits") if "/rt-edit-" in at else "tests" if "--test" in words or "_tests" in " ".join(words[1:]) and not name.endswith("_tests") else "proof"
        found.append((pid, rest[19], name, kind, (int(rest[11]) + int(rest[12])) / ticks))
    lines = [f"gate {time.time() - begun:.0f} {pid}.{start} {name} {kind} {spent:.1f}\n" for pid, start, name, kind, spent in found if is_ours(pid, above)]
    with open(log, "a") as to: to.writelines(lines)
    if "gate: ended with status" in read(log)[-4000:]: break
    time.sleep(1)
with open(log, "a") as to: to.write(f"gate whole {time.time() - begun:.0f}\n")
PYTHON
    set -- "$log"
fi
awk '
    $1 == "gate" && $2 == "whole" { whole = $3 }
    $1 == "gate" && NF == 6 { spent[$3 " " $4 " " $5] = $6; crates[$4] = 1 }
    /^\| (rt: )?must-fail [a-z0-9_]+\// { name = $0; sub(/^.*must-fail /, "", name); sub(/\/.*/, "", name); tried[name]++; tries++ }
    END {
        for (process in spent) {
            split(process, word, " ")
            sum[word[2] " " word[3]] += spent[process]
            all[word[2]] += spent[process]
            kind[word[3]] += spent[process]
            total += spent[process]
        }
        print "| Crate | proof | tests | seed | edits | all |"
        print "|---|---|---|---|---|---|"
        order = "sort -t\"|\" -k7,7nr"
        for (name in crates)
            printf "| `%s` | %d | %d | %d | %d (%d) | %d |\n", name, sum[name " proof"], sum[name " tests"], sum[name " seed"], sum[name " edits"], tried[name], all[name] | order
        close(order)
        printf "| all | %d | %d | %d | %d (%d) | %d |\n", kind["proof"], kind["tests"], kind["seed"], kind["edits"], tries, total
        printf "\nProcessor minutes: %d. Minutes by the clock: %d.\n", total / 60, whole / 60
    }' "$1"
