#!/bin/sh
# Runs the program on inputs that are meant to be dear, each in three sizes, and prints a table: millions of instructions, and how many
# times those of a harmless input of the largest size. Needs `valgrind`; not a part of the gate.
#   bench/hostile.sh                  builds the proved program first, if it is not there
#   bench/hostile.sh PROGRAM [MOST]   measures this one; the largest input has MOST KiB, if it is said, and otherwise 1,024
here=$(cd "$(dirname "$0")/.." && pwd) || exit 1
dice=$1
most=${2:-1024}
if [ -z "$dice" ]; then
    "$here/dice" run </dev/null || exit 1
    dice="$here/crates/dice_cli/out/dice_cli"
fi
exec python3 - "$dice" "$most" "$here" <<'PYTHON'
import os, re, subprocess, sys, tempfile
from concurrent.futures import ThreadPoolExecutor
dice, most, here = sys.argv[1], int(sys.argv[2]) * 1024, sys.argv[3]

def put(path, text):
    return f"put {path} {len(text)}\n{text}\n"

def asks(names):
    return "commit\nopen t\n" + "".join(f"ask t r{i} //a:{name}\n" for i, name in enumerate(names))

def filled(size, one):
    """The texts `one(0)`, `one(1)`, .. until they have this size."""
    out, length, i = [], 0, 0
    while length < size:
        text = one(i)
        out.append(text)
        length += len(text)
        i += 1
    return out

def of_file(text, *names):
    """A script of one target file, of which these targets are asked for."""
    return put("a/BUCK", text) + asks(names)

# Target files. One target of each is asked for.
def calls(size):
    return of_file("".join(filled(size, lambda i: f'stamp_file(name = "t{i}")\n')), "t0")

def calls_named(head, size):
    names = filled(size * 2 // 3, lambda i: f"{head}{i:08}")
    return of_file("".join(f'stamp_file(name = "{name}")\n' for name in names), names[0])

# (by the library's own hasher any eight bytes after the first head lead to the same hash)
def one_hash(size):
    return calls_named("head000000021936UfrwccmK", size)

def many_hashes(size):
    return calls_named("head000000021936abcdefgh", size)

def string(size):
    return of_file(f'write_file(name = "t0", content = "{"x" * size}")\n', "t0")

def escapes(size):
    return of_file(f'write_file(name = "t0", content = "{chr(92) + "n"}{(chr(92) + "n") * (size // 2)}")\n', "t0")

def open_string(size):
    return of_file('write_file(name = "t0", content = "' + "x" * size, "t0")

def sources(size):
    return put("a/f", "") + of_file(f'filegroup(name = "t0", srcs = [{", ".join(filled(size, lambda i: chr(34) + "f" + chr(34)))}])\n', "t0")

def labels(size):
    return of_file(f'stamp_file(name = "t0", labels = [{"".join(filled(size, lambda i: chr(34) * 2 + ","))}])\n', "t0")

def other_sources(size):
    return of_file(f'filegroup(name = "t0", srcs = [{", ".join(filled(size, lambda i: f"{chr(34)}f{i}{chr(34)}"))}])\n', "t0")

def locations(size):
    return of_file(f'stamp_file(name = "s")\ngenrule(name = "t0", out = "o", cmd = "{"".join(filled(size, lambda i: "$(location :s)"))}")\n', "t0")

def dollars(size):
    return of_file(f'genrule(name = "t0", out = "o", cmd = "{"$(locatio" * (size // 9)}")\n', "t0")

def quotes(size):
    return of_file(f'genrule(name = "t0", out = "o", cmd = "{("it" + chr(39) + chr(92) + chr(34)) * (size // 5)}")\n', "t0")

def comments(size):
    return of_file("#\n" * (size // 2) + 'stamp_file(name = "t0")\n', "t0")

def comment(size):
    return of_file("#" * size + '\nstamp_file(name = "t0")\n', "t0")

def blanks(size):
    return of_file("\t\n\r " * (size // 4) + 'stamp_file(name = "t0")\n', "t0")

def deep(size):
    path = "a/" * 127 + "b"
    return of_file(f'filegroup(name = "t0", srcs = [{", ".join(filled(size, lambda i: chr(34) + path + chr(34)))}])\n', "t0")

def late_fault(size):
    text = "".join(filled(size, lambda i: f'stamp_file(name = "t{i}")\n'))
    return of_file(text + 'stamp_file(name = "t0")\n', "t0")

# Targets that stand on each other, in one file.
def all_asked(size):
    texts = filled(size // 2, lambda i: f'stamp_file(name = "t{i}")\n')
    return of_file("".join(texts), *(f"t{i}" for i in range(len(texts))))

def chain(size):
    texts = filled(size, lambda i: f'filegroup(name = "t{i}", srcs = [":t{i - 1}"])\n' if i else 'stamp_file(name = "t0")\n')
    return of_file("".join(texts), f"t{len(texts) - 1}")

def star(size):
    texts = filled(size // 2, lambda i: f'filegroup(name = "t{i}", srcs = [":s"])\n')
    return of_file('stamp_file(name = "s")\n' + "".join(texts), *(f"t{i}" for i in range(len(texts))))

def ladder(size):
    texts = filled(size, lambda i: f'filegroup(name = "t{i}", srcs = [":t{i - 1}", ":t{max(i - 2, 0)}"])\n' if i else 'stamp_file(name = "t0")\n')
    return of_file("".join(texts), f"t{len(texts) - 1}")

def wide(size):
    texts = filled(size // 2, lambda i: f'stamp_file(name = "t{i}")\n')
    return of_file("".join(texts) + f'filegroup(name = "all", srcs = [{", ".join(f"{chr(34)}:t{i}{chr(34)}" for i in range(len(texts)))}])\n', "all")

def ring(size):
    texts = filled(size, lambda i: f'filegroup(name = "t{i}", srcs = [":t{i + 1}"])\n')
    return of_file("".join(texts) + f'filegroup(name = "t{len(texts)}", srcs = [":t0"])\n', "t0")

def edited(size):
    """A file of which all targets are asked for, before and after a comment of it changes."""
    texts = filled(size // 4, lambda i: f'write_file(name = "t{i}", content = "")\n')
    out = []
    for version in "12":
        out.append(put("a/BUCK", f"# {version}\n" + "".join(texts)) + f"commit\nopen t{version}\n")
        out.append("".join(f"ask t{version} r{version}-{i} //a:t{i}\nwait r{version}-{i}\n" for i in range(len(texts))))
    return "".join(out)

# Scripts.
def puts(size):
    return "".join(filled(size, lambda i: f"put a/{i} 1\n0\n")) + "commit\n"

def two_contents(size):
    return put("a/BUCK", 'export_file(name = "f")\n') + "".join(filled(size, lambda i: f"put a/f 1\n{i % 2}\ncommit\nopen t{i}\nask t{i} r{i} //a:f\n"))

def new_contents(size):
    return put("a/BUCK", 'export_file(name = "f")\n') + "".join(filled(size, lambda i: f"put a/f 5\n{i:05}\ncommit\nopen t{i}\nask t{i} r{i} //a:f\nwait r{i}\nclose t{i}\n"))

def one_key(size):
    return put("a/BUCK", 'stamp_file(name = "f")\n') + "commit\nopen t\n" + "".join(filled(size, lambda i: f"ask t r{i} //a:f\n"))

def given_up(size):
    return put("a/BUCK", 'stamp_file(name = "f")\n') + "commit\nopen t\n" + "".join(filled(size, lambda i: f"ask t r{i} //a:f\ncancel r{i}\n"))

def opened(size):
    return "".join(filled(size, lambda i: f"open t{i}\n"))

def of_names(names):
    """Each a transaction's and that of a request in it."""
    lines = [put("a/BUCK", 'stamp_file(name = "f")\n') + "commit\n"]
    for line in ("open {0}\n", "ask {0} {0} //a:f\n", "wait {0}\n", "close {0}\n"):
        lines += [line.format(name) for name in names]
    return "".join(lines)

def meeting(size):
    """Names of 16 bytes that meet in one bucket of a table that is hashed without a seed, 2,000 at most."""
    with open(os.path.join(here, "bench", "meeting_names.txt")) as stored:
        return of_names(["n" + line.strip().rjust(15, "0") for line in stored][:size // 64])

def scattered(size):
    return of_names([f"n{i:015}" for i in range(min(2000, size // 64))])

def comments_of_script(size):
    return "#\n" * (size // 2)

inputs = [
    ("20,000 calls and more", calls), ("calls whose names have one hash", one_hash), ("calls of other such names", many_hashes), ("one string", string), ("one string of escapes", escapes), ("a string without an end", open_string),
    ("one list of one source", sources), ("one list of sources that are not there", other_sources), ("one list of empty labels", labels),
    ("a command of locations", locations), ("a command of beginnings of locations", dollars), ("a command of quotes", quotes),
    ("comments of one byte", comments), ("one comment", comment), ("blanks", blanks), ("paths of 255 bytes", deep),
    ("a name that comes again at the end", late_fault), ("a file all of whose targets are asked for", all_asked), ("a chain in a file", chain),
    ("targets that all ask for one", star), ("targets that ask for the two before", ladder), ("a target that asks for all others", wide),
    ("a cycle through all targets of a file", ring), ("a comment of a file edited, all asked for twice", edited),
    ("puts of one byte", puts), ("one path of two contents in turn", two_contents), ("one path of new contents", new_contents),
    ("one target asked for again and again", one_key), ("the same, each given up", given_up), ("transactions that stay open", opened),
    ("empty comments of a script", comments_of_script), ("names of which a table without a seed puts all in one bucket", meeting),
    ("other names", scattered),
]

def packages(size):
    """The harmless input: packages of ten targets with a source each, all of which are asked for."""
    def package(p):
        text = "".join(f'export_file(name = "t{i}", src = "s{i}")\n' for i in range(10))
        return put(f"p{p}/BUCK", text) + "".join(put(f"p{p}/s{i}", f"{p} {i}") for i in range(10))
    texts = filled(size * 7 // 10, package)
    return "".join(texts) + "commit\nopen t\n" + "".join(f"ask t r{p}-{i} //p{p}:t{i}\n" for p in range(len(texts)) for i in range(10))

def count(make, size):
    """The bytes of an input, and how many instructions a run without workers takes."""
    script = make(size)
    with tempfile.TemporaryFile() as source:
        source.write(script.encode())
        source.seek(0)
        ran = subprocess.run(["valgrind", "--tool=callgrind", "--callgrind-out-file=/dev/null", dice, "run", "--workers", "0"], stdin=source,
                             stdout=subprocess.DEVNULL, stderr=subprocess.PIPE, text=True)
    found = re.search(r"Collected : (\d+)", ran.stderr)
    return len(script), int(found[1]) / 1e6 if found else 0

sizes = [most // 4, most // 2, most]
with ThreadPoolExecutor(os.cpu_count()) as pool:
    harmless = pool.submit(count, packages, most)
    runs = [(what, [pool.submit(count, make, size) for size in sizes]) for what, make in inputs]
    length, dear = harmless.result()
    print(f"A harmless input of {length:,} bytes takes {dear:,.0f} M instructions.\n")
    print("| Input | " + " | ".join(f"{size // 1024} KiB" for size in sizes) + " | times the harmless one |\n|---|" + "---|" * (len(sizes) + 1))
    for what, counts in runs:
        found = [it.result() for it in counts]
        times = found[-1][1] / found[-1][0] / (dear / length)
        print(f"| {what} | " + " | ".join(f"{it[1]:,.0f}" for it in found) + f" | {times:.2f} |", flush=True)
PYTHON
