#!/bin/sh
# Measures the program on scripts of its own making, and prints a table.
#   bench/run.sh              builds the proved program first, if it is not there
#   bench/run.sh PROGRAM      measures this one, for example a build that is not proved yet
# Milliseconds by the wall clock, of the whole process: the least of five runs. Instructions, in millions, if `valgrind` is there;
# they do not depend on the machine's load. Memory is the peak of the process, in MB.
here=$(cd "$(dirname "$0")/.." && pwd) || exit 1
work=$(mktemp -d) || exit 1
trap 'rm -rf "$work"' EXIT
dice=$1
if [ -z "$dice" ]; then
    "$here/dice" run </dev/null || exit 1
    dice="$here/crates/dice_cli/out/dice_cli"
fi

# one `write_file` in each of n packages, and a request for each
packages() {
    awk -v n="$1" 'BEGIN {
        for (i = 0; i < n; i++) {
            text = sprintf("write_file(name = \"t\", content = \"%d\")\n", i)
            printf "put p%d/BUCK %d\n%s\n", i, length(text), text
        }
        print "commit"
        print "open t"
        for (i = 0; i < n; i++) printf "ask t r%d //p%d:t\n", i, i
    }'
}

# forty packages with target files of 100 KB, of each of which one target is asked for
large_packages() {
    awk 'BEGIN {
        for (p = 0; p < 40; p++) {
            text = ""
            for (i = 0; i < 2000; i++) text = text sprintf("write_file(name = \"t%d\", content = \"%d %d\")\n", i, p, i)
            printf "put p%d/BUCK %d\n%s\n", p, length(text), text
        }
        print "commit"
        print "open t"
        for (p = 0; p < 40; p++) printf "ask t r%d //p%d:t7\n", p, p
    }'
}

# a graph of 2,000 targets in twenty packages: target i takes source i and the targets of the quotients of i by 2 and by 3
graph='
    function rule(i) {
        if (i == 0) return "export_file(name = \"t0\", src = \"s0\")\n"
        return sprintf("filegroup(name = \"t%d\", srcs = [\"s%d\", \"//g%d:t%d\", \"//g%d:t%d\"])\n", i, i, int(int(i / 2) / 100), int(i / 2), int(int(i / 3) / 100), int(i / 3))
    }
    function put(path, text) { printf "put %s %d\n%s\n", path, length(text), text }
    function make(   g, i, text) {
        for (g = 0; g < 20; g++) {
            text = ""
            for (i = g * 100; i < g * 100 + 100; i++) text = text rule(i)
            put("g" g "/BUCK", text)
            for (i = g * 100; i < g * 100 + 100; i++) put("g" g "/s" i, "0")
        }
        print "commit"
    }
'

# the source of the lowest target changes and a target far above it is asked for, 200 times
leaf() {
    awk "$graph"'BEGIN {
        make()
        for (k = 0; k < 200; k++) {
            put("g0/s0", "" k)
            printf "commit\nopen t%d\nask t%d r%d //g19:t1999\nwait r%d\nclose t%d\n", k, k, k, k, k
        }
    }'
}

# the source of a target changes and that target is asked for, 2,000 times
own() {
    awk "$graph"'BEGIN {
        make()
        for (k = 0; k < 2000; k++) {
            put("g19/s1999", "" k)
            printf "commit\nopen t%d\nask t%d r%d //g19:t1999\nwait r%d\nclose t%d\n", k, k, k, k, k
        }
    }'
}

# a target takes a source of 1 MB and a small one, which changes 20 times; it is asked for each time
large_source() {
    awk 'BEGIN {
        text = "filegroup(name = \"t\", srcs = [\"large\", \"small\"])\n"
        printf "put a/BUCK %d\n%s\nput a/large 1000000\n", length(text), text
        for (i = 0; i < 10000; i++) printf "%0100d", i
        print ""
        for (k = 0; k < 20; k++) printf "put a/small %d\n%d\ncommit\nopen t%d\nask t%d r%d //a:t\nwait r%d\nclose t%d\n", length(k), k, k, k, k, k, k
    }'
}

# a target takes 1,000 sources, one of which changes 300 times; it is asked for each time
many_sources() {
    awk 'BEGIN {
        text = "filegroup(name = \"t\", srcs = ["
        for (i = 0; i < 1000; i++) text = text sprintf("%s\"s%d\"", i ? ", " : "", i)
        text = text "])\n"
        printf "put a/BUCK %d\n%s\n", length(text), text
        for (i = 0; i < 1000; i++) printf "put a/s%d 1\n0\n", i
        for (k = 0; k < 300; k++) printf "%sput a/s7 %d\n%d\ncommit\nopen t%d\nask t%d r%d //a:t\nwait r%d\nclose t%d\n", k ? "" : "commit\n", length(k), k, k, k, k, k, k
    }'
}

# one of n targets in one file changes, and another one is asked for, or all are
one_file() {
    awk -v n="$1" -v all="$2" 'BEGIN {
        for (round = 0; round < 2; round++) {
            text = ""
            for (i = 0; i < n; i++) text = text sprintf("write_file(name = \"t%d\", content = \"%d\")\n", i, i == 7 ? round : 0)
            printf "put a/BUCK %d\n%s\ncommit\nopen t%d\n", length(text), text, round
            if (all) for (i = 0; i < n; i++) printf "ask t%d r%d-%d //a:t%d\n", round, round, i, i
            else printf "ask t%d r%d //a:t8\nwait r%d\n", round, round, round
        }
    }'
}

# a file of n targets, which are all asked
file_asked() {
    awk -v n="$1" 'BEGIN {
        text = ""
        for (i = 0; i < n; i++) text = text sprintf("write_file(name = \"t%d\", content = \"0\")\n", i)
        printf "put a/BUCK %d\n%s\ncommit\nopen t\n", length(text), text
        for (i = 0; i < n; i++) printf "ask t r%d //a:t%d\n", i, i
    }'
}

# a chain of 2,000 targets in twenty packages, whose end changes; or under which the comment of a package changes
chain() {
    awk -v comment="$1" 'BEGIN {
        for (round = 0; round < 2; round++) {
            for (g = 0; g < (round ? 1 : 20); g++) {
                text = comment ? "# " round "\n" : ""
                for (i = g * 100; i < g * 100 + 100; i++)
                    text = text (i == 0 ? "export_file(name = \"t0\", src = \"s\")\n" : sprintf("filegroup(name = \"t%d\", srcs = [\"//g%d:t%d\"])\n", i, int((i - 1) / 100), i - 1))
                printf "put g%d/BUCK %d\n%s\n", g, length(text), text
            }
            printf "put g0/s 1\n%d\ncommit\nopen t%d\nask t%d r%d //g19:t1999\nwait r%d\n", comment ? 0 : round, round, round, round, round
        }
    }'
}

# a chain of n targets in one file
chain_in_file() {
    awk -v n="$1" 'BEGIN {
        text = "export_file(name = \"t0\", src = \"s\")\n"
        for (i = 1; i < n; i++) text = text sprintf("filegroup(name = \"t%d\", srcs = [\":t%d\"])\n", i, i - 1)
        printf "put a/BUCK %d\n%s\nput a/s 1\n0\ncommit\nopen t\nask t r //a:t%d\n", length(text), text, n - 1
    }'
}

# a script of 4 MiB: 100,000 puts of one byte, 50,000 transactions that stay open, 125,000 requests, each name a new one
worst() {
    awk 'BEGIN {
        for (i = 0; i < 100000; i++) printf "put %x 1\n%d\n", i, i % 10
        print "commit"
        for (i = 0; i < 50000; i++) printf "open %x\n", i
        for (i = 0; i < 125000; i++) printf "ask %x %x //a\n", i % 50000, i
    }'
}

# one path is put and committed n times, with so many contents in turn, and asked for each time
history() {
    awk -v n="$1" -v contents="$2" 'BEGIN {
        text = "export_file(name = \"f\")\n"
        printf "put a/BUCK %d\n%s\n", length(text), text
        for (i = 0; i < n; i++) printf "put a/f 5\n%05d\ncommit\nopen t%d\nask t%d r%d //a:f\n", i % contents, i, i, i
    }'
}

# 4,000 paths of 208 bytes are put, and a target of each is asked for; all paths have one hash under the kit's default hasher, or
# each has its own. (The hasher's seed is fixed, so the two spellings of a block of 16 bytes lead it to the same state.)
paths() {
    awk -v same="$1" 'BEGIN {
        first = "QSXWrTL3UeBxYime"
        a = "5YM1Zm3bo1Z3uCDT kkitt91wiJPu56IM xaF1OqKcud789Msg MKCWs0W9tklA62k- nGv0O0Cfnbd3l0.f 7H_iOX5DfPJ05S9b"
        a = a " rfU7k1sZX13.s.f1 0DVAFLOzFa7HsIQI P-bYo6h4Y0-wzanR 1XjE.W_r-0lJtY9. 1-EqYd5.6yqxCF4t UPM4Pdq2kGt1WPyr"
        b = ".X.Fel1_t09DJBFi XUcduvJXZtZe4y2b 9K0QFuj04NAX0IR4 TDUWqgcBmdzA4e_V -DxpasC7-ajsBs.7 7_fwBlbWfGs.8gnq"
        b = b " Ob5Z-WWEe5SC5HB. Bd01marB4AQ8Xdlq cVbZV9r6jK-tCntP W_5c17RlK73lk940 b2Q0nNt8efe9tlub yPoc3gX1GGVf4SPq"
        count = split(a, blocks)
        split(b, others)
        for (i = 0; i < 4000; i++) {
            path[i] = first
            rest = i
            for (k = 1; k <= count; k++) {
                path[i] = path[i] (same ? (rest % 2 ? others[k] : blocks[k]) : sprintf("%016d", k == 1 ? i : 0))
                rest = int(rest / 2)
            }
            printf "put %s 1\n0\n", path[i]
        }
        print "commit"
        print "open t"
        for (i = 0; i < 4000; i++) printf "ask t r%d //a:%s\n", i, path[i]
    }'
}

# 4,000 names of 32 bytes, each of a transaction and of a request in it; all names have one hash under the kit's default hasher (with
# this head any eight bytes at the end lead it to the same hash), or each has its own
names() {
    awk -v same="$1" 'BEGIN {
        text = "write_file(name = \"t\", content = \"1\")\n"
        printf "put a/BUCK %d\n%s\ncommit\n", length(text), text
        for (i = 0; i < 4000; i++)
            name[i] = same ? sprintf("head000000021936UfrwccmK%08d", i) : sprintf("head%012dabcdefgh00000000", i)
        for (i = 0; i < 4000; i++) printf "open %s\n", name[i]
        for (i = 0; i < 4000; i++) printf "ask %s %s //a:t\n", name[i], name[i]
        for (i = 0; i < 4000; i++) printf "wait %s\n", name[i]
        for (i = 0; i < 4000; i++) printf "close %s\n", name[i]
    }'
}

# a row of the table: what is measured, and the file of the script with the words of the program
row() {
    python3 - "$dice" "$@" <<'PYTHON'
import os, re, shutil, subprocess, sys, time
dice, what, script, *words = sys.argv[1:]

def run(workers):
    """Runs the program, and returns milliseconds and MB."""
    with open(script) as source, open(os.devnull, "w") as sink:
        begun = time.monotonic()
        child = subprocess.Popen([dice, *words, "--workers", workers], stdin=source, stdout=sink)
        _, status, used = os.wait4(child.pid, 0)
    if status:
        sys.exit(f"{what}: status {os.waitstatus_to_exitcode(status)}")
    return 1000 * (time.monotonic() - begun), used.ru_maxrss / 1024

def instructions():
    """Counts the instructions of a run without workers, in millions."""
    if not shutil.which("valgrind"):
        return "–"
    tool = ["valgrind", "--tool=callgrind", "--callgrind-out-file=/dev/null"]
    with open(script) as source:
        ran = subprocess.run([*tool, dice, *words, "--workers", "0"], stdin=source, stdout=subprocess.DEVNULL, stderr=subprocess.PIPE, text=True)
    found = re.search(r"Collected : (\d+)", ran.stderr)
    return f"{int(found[1]) / 1e6:,.0f}" if found else "–"

alone = min(run("0") for _ in range(5))
together = min(run("4") for _ in range(5))
# (callgrind takes some fifty times as long)
count = instructions() if alone[0] < 2500 else "–"
print(f"| {what} | {alone[0]:.1f} | {together[0]:.1f} | {count} | {alone[1]:.0f} |", flush=True)
PYTHON
}

# a row over a script that a function makes
script() {
    what=$1
    shift
    "$@" >"$work/script" || exit 1
    row "$what" "$work/script" run || exit 1
}

echo '| Script | ms | ms, 4 workers | M instructions | MB |'
echo '|---|---|---|---|---|'
for n in 100 1000 10000; do row "\`bulk $n\`" /dev/null bulk "$n" || exit 1; done
script '2,000 packages of one target each, all asked' packages 2000
script '40 packages with target files of 100 KB, one target of each asked' large_packages
script 'one of 2,000 targets changed and asked, 2,000 times' own
script 'the lowest of 2,000 targets changed, forty stand on it, 200 times' leaf
script 'a target of a source of 1 MB and of a small one, which changes 20 times' large_source
script 'a target of 1,000 sources, one of which changes 300 times' many_sources
script 'one of 1,000 targets in a file edited, an equal one asked' one_file 1000 0
for n in 1000 5000 10000; do script "a file of $n targets, all asked" file_asked "$n"; done
for n in 1000 5000; do script "one of $n targets in a file edited, all asked" one_file "$n" 1; done
script 'a chain of 2,000 targets in 20 packages whose end changed' chain ''
script 'such a chain, and a comment of its lowest package changed' chain 1
for n in 1000 5000 10000; do script "a chain of $n targets in one file" chain_in_file "$n"; done
script 'a script of 4 MiB of puts, transactions and requests' worst
for n in 1000 4000 20000; do
    script "one path of two contents in turn, asked $n times" history "$n" 2
    script "one path of new contents, asked $n times" history "$n" "$n"
done
script '4,000 paths with hashes of their own' paths ''
script '4,000 paths with one hash' paths 1
script '4,000 names with hashes of their own' names ''
script '4,000 names with one hash' names 1
