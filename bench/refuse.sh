#!/bin/sh
# Runs the program with each allocation refused in turn, with each read and each write failing in turn, and with each of these made
# short in turn, and prints how the runs ended. Needs `cc`; not a part of the gate.
#   bench/refuse.sh                  builds the proved program first, if it is not there
#   bench/refuse.sh PROGRAM          tries this one
#   bench/refuse.sh tests BINARY..   runs each test of these, as `rt test` leaves them in crates/*_tests/out, with each of its
#                                    allocations refused in turn; of a test with more than 2,000 of them, 100 that lie evenly
here=$(cd "$(dirname "$0")/.." && pwd) || exit 1
work=$(mktemp -d) || exit 1
trap 'rm -rf "$work"' EXIT
dice=$1
[ "$dice" = tests ] && shift
if [ -z "$dice" ]; then
    "$here/dice" run </dev/null || exit 1
    dice="$here/crates/dice_cli/out/dice_cli"
fi

# A library that the program is run with: of the calls of one kind the call with a number goes wrong, from 1, or all calls from it on.
cat >"$work/refuse.c" <<'C'
#define _GNU_SOURCE
#include <errno.h>
#include <stdatomic.h>
#include <stdlib.h>
#include <string.h>
#include <sys/syscall.h>
#include <unistd.h>

extern void *__libc_malloc(size_t), *__libc_realloc(void *, size_t);

static const char *kind = "";
static long number, on;
static atomic_long calls;

__attribute__((constructor)) static void read_words(void) {
    if (getenv("REFUSE_KIND")) kind = getenv("REFUSE_KIND");
    if (getenv("REFUSE_NUMBER")) number = atol(getenv("REFUSE_NUMBER"));
    on = getenv("REFUSE_ON") != 0;
}

/* A call of this kind is made: whether it goes wrong. */
static int goes_wrong(const char *now) {
    if (strcmp(kind, now)) return 0;
    long call = atomic_fetch_add(&calls, 1) + 1;
    return on ? call >= number : call == number;
}

void *malloc(size_t size) { return goes_wrong("memory") ? 0 : __libc_malloc(size); }

void *realloc(void *old, size_t size) { return goes_wrong("memory") ? 0 : __libc_realloc(old, size); }

ssize_t read(int file, void *to, size_t size) {
    if (file == 0 && goes_wrong("read")) return errno = EIO, -1;
    if (file == 0 && size > 1 && goes_wrong("short read")) size = 1;
    return syscall(SYS_read, file, to, size);
}

ssize_t write(int file, const void *from, size_t size) {
    if (file == 1 && goes_wrong("write")) return errno = EIO, -1;
    if (file == 1 && size > 1 && goes_wrong("short write")) size = 1;
    return syscall(SYS_write, file, from, size);
}

/* Writes to a file how many calls there were. */
static void tell(void) {
    const char *name = getenv("REFUSE_TELL");
    char text[24];
    int at = sizeof text;
    if (!name) return;
    for (long n = atomic_load(&calls); at == sizeof text || n; n /= 10) text[--at] = '0' + n % 10;
    int file = syscall(SYS_open, name, 577, 0644);
    syscall(SYS_write, file, text + at, sizeof text - at);
    syscall(SYS_close, file);
}

void _exit(int status) {
    tell();
    syscall(SYS_exit_group, status);
    __builtin_unreachable();
}

__attribute__((destructor)) static void tell_at_end(void) { tell(); }
C
cc -O2 -shared -fPIC -o "$work/refuse.so" "$work/refuse.c" || exit 1

if [ "$dice" = tests ]; then
    python3 - "$work" "$@" <<'PYTHON'
import collections, os, subprocess, sys
from concurrent.futures import ThreadPoolExecutor
work, *binaries = sys.argv[1:]
most, sample = 2000, 100

def run(binary, test, number=0, tell=None):
    """Runs a test, and returns the status and what was printed."""
    extra = {"LD_PRELOAD": f"{work}/refuse.so", "REFUSE_KIND": "memory", "REFUSE_NUMBER": str(number)}
    if tell:
        extra["REFUSE_TELL"] = tell
    done = subprocess.run([binary, test], stdout=subprocess.PIPE, stderr=subprocess.STDOUT, env={**os.environ, **extra}, timeout=120)
    return done.returncode, done.stdout.decode(errors="replace")

def calls(binary, test):
    """How many allocations a run of a test makes."""
    tell = f"{work}/calls"
    if run(binary, test, tell=tell)[0]:
        sys.exit(f"{binary} {test}: fails with all memory there")
    with open(tell) as file:
        return int(file.read())

def ending(got):
    """How a test ended, and whether it may end so: a refusal is told as one, and no other answer changes."""
    status, said = got
    if status == 0 and "test result: ok" in said:
        return "passed", True
    if status == 101 and any(it in said for it in ("NoMemory", "AllocError", "AllocFailed", "no memory")):
        return "told that memory was refused", True
    # (many rows call a helper that gives nothing where memory is refused, so these runs only show that nothing else goes wrong)
    if status == -6 and "test stopped at" in said:
        return "stopped at a row", True
    return f"status {status}: {' '.join(said.split())[:150]}", False

bad = 0
print("| Tests of | Tests | Runs | How they ended |\n|---|---|---|---|")
for binary in binaries:
    ends, runs = collections.Counter(), 0
    listed = subprocess.run([binary, "--list"], stdout=subprocess.PIPE, text=True).stdout
    tests = [it[: -len(": test")] for it in listed.splitlines() if it.endswith(": test")]
    for test in tests:
        count = calls(binary, test)
        numbers = range(1, count + 1) if count <= most else sorted({1 + i * count // sample for i in range(sample)})
        with ThreadPoolExecutor(os.cpu_count()) as pool:
            for number, got in zip(numbers, pool.map(lambda n: run(binary, test, n), numbers)):
                text, fine = ending(got)
                runs += 1
                ends[text if fine else "otherwise"] += 1
                if not fine:
                    bad += 1
                    print(f"{test}, allocation {number} of {count}: {text}", file=sys.stderr)
    name = os.path.basename(binary).replace("_tests_tests", "_tests")
    print(f"| `{name}` | {len(tests)} | {runs} | {'; '.join(f'{n} {text}' for text, n in ends.most_common())} |", flush=True)
sys.exit(1 if bad else 0)
PYTHON
    exit
fi
python3 - "$dice" "$work" "$here"/examples/*.dice <<'PYTHON'
import collections, os, subprocess, sys
from concurrent.futures import ThreadPoolExecutor
dice, work, *scripts = sys.argv[1:]

def words_of(script):
    return ["run", "--trace"] if script.endswith("trace.dice") else ["run"]

def run(script, kind="", number=0, on=False, workers=0, tell=None):
    """Runs a script, and returns the status and what was printed."""
    extra = {"LD_PRELOAD": f"{work}/refuse.so", "REFUSE_KIND": kind, "REFUSE_NUMBER": str(number)}
    if on:
        extra["REFUSE_ON"] = "1"
    if tell:
        extra["REFUSE_TELL"] = tell
    with open(script) as source:
        done = subprocess.run([dice, *words_of(script), "--workers", str(workers)], stdin=source, stdout=subprocess.PIPE,
                              stderr=subprocess.DEVNULL, env={**os.environ, **extra}, timeout=60)
    return done.returncode, done.stdout

def calls(script, kind, workers):
    """How many calls of a kind a run makes."""
    tell = f"{work}/calls"
    run(script, kind, 0, workers=workers, tell=tell)
    with open(tell) as file:
        return int(file.read())

def ending(kind, right, got):
    """How a run ended, and whether it may end so."""
    status, output = got
    if status == 0 and output == right:
        return "the whole output, status 0", True
    if kind == "memory" and status == 6 and output == b"":
        return "nothing, status 6", True
    if kind == "read" and status == 3 and output == b"":
        return "nothing, status 3", True
    if kind == "write" and status == 4 and right.startswith(output):
        return "a beginning of the output, status 4", True
    return f"status {status}, {len(output)} bytes", False

kinds = [
    ("memory", False, 0, "one allocation refused"),
    ("memory", True, 0, "all allocations refused from one on"),
    ("memory", False, 2, "one allocation refused, two workers"),
    ("read", False, 0, "one read fails"),
    ("write", False, 0, "one write fails"),
    ("short read", False, 0, "one read of one byte"),
    ("short read", True, 0, "all reads of one byte from one on"),
    ("short write", False, 0, "one write of one byte"),
    ("short write", True, 0, "all writes of one byte from one on"),
]
bad = 0
print("| What goes wrong | Runs | How they ended |\n|---|---|---|")
for kind, on, workers, name in kinds:
    ends = collections.Counter()
    for script in scripts:
        right = run(script)[1]
        count = calls(script, kind, workers)
        with ThreadPoolExecutor(os.cpu_count()) as pool:
            for number, got in enumerate(pool.map(lambda n: run(script, kind, n, on, workers), range(1, count + 1)), 1):
                text, fine = ending(kind, right, got)
                ends[text] += 1
                if not fine:
                    bad += 1
                    print(f"{os.path.basename(script)}, {kind} {number}: {text}", file=sys.stderr)
    print(f"| {name} | {sum(ends.values())} | {'; '.join(f'{n} {text}' for text, n in ends.most_common())} |", flush=True)
sys.exit(1 if bad else 0)
PYTHON
