#!/usr/bin/env python3
"""Times the must-fail edits of a crate, each over the work that `rt check` kept of the crate.

    bench/edits.py CRATE [EDIT..]    after `rt check` in crates/CRATE

A line an edit: processor seconds, the longest stages of the check, and what was not proved. A stage `offers` says that the goal
that failed has no answer of its own: all tactics were tried, and then the prover ran once more to offer files.
"""
import importlib.machinery
import importlib.util
import os
import re
import resource
import shutil
import subprocess
import sys
import tempfile

sys.dont_write_bytecode = True
TOP = os.path.dirname(os.path.dirname(os.path.abspath(__file__)))


def load_rt():
    doc = subprocess.run(["rt", "doc"], stdout=subprocess.PIPE, text=True, check=True).stdout.strip()
    loader = importlib.machinery.SourceFileLoader("rt_main", f"{os.path.dirname(doc)}/bin/rt")
    made = importlib.util.module_from_spec(importlib.util.spec_from_loader("rt_main", loader))
    sys.modules["rt_main"] = made
    loader.exec_module(made)
    return made


def spent():
    used = resource.getrusage(resource.RUSAGE_CHILDREN)
    return used.ru_utime + used.ru_stime


def stages_of(file):
    """The five longest stages, in seconds by the clock."""
    with open(file, encoding="utf-8") as it:
        found = [line.split() for line in it if line.startswith("stage ")]
    longest = sorted(found, key=lambda words: -float(words[2]))[:5]
    return ", ".join(f"{words[1]} {float(words[2]):.1f}" for words in longest)


def try_edit(rt, crate, texts):
    """Checks a copy of the crate with these texts in place of its own, and returns its seconds, its stages and what it said."""
    with tempfile.TemporaryDirectory(prefix="edit-") as room:
        for part in rt.rtlib.PARTS:
            if os.path.isdir(f"{crate.folder}/{part}"):
                shutil.copytree(f"{crate.folder}/{part}", f"{room}/{part}")
        for path, text in texts.items():
            with open(f"{room}/{path}", "w", encoding="utf-8") as it:
                it.write(text)
        shutil.copytree(f"{crate.folder}/out/incremental", f"{room}/kept")
        words = [rt.rtlib.RATTLE, "check", *crate.words(["--jobs", "1"], keeps=False)]
        words += ["--incremental", f"{room}/kept", "--stage-times", f"{room}/stages"]
        how = {"cwd": room, "stdin": subprocess.DEVNULL, "stdout": subprocess.PIPE, "stderr": subprocess.STDOUT, "errors": "replace"}
        begun = spent()
        ran = subprocess.run([*rt.rtlib.guarded(), *words], **how)
        return spent() - begun, stages_of(f"{room}/stages"), ran.stdout


def main(name, wanted):
    rt = load_rt()
    os.chdir(TOP)
    crate = {it.name: it for it in rt.rtlib.crates_below(TOP)}[name]
    for edit in rt.edits_of(crate)[0]:
        label = os.path.basename(edit).removesuffix(".edit")
        if wanted and label not in wanted:
            continue
        texts, why = rt.read_edit(edit, crate.folder)
        if why:
            print(f"{label}: {why}")
            continue
        seconds, stages, said = try_edit(rt, crate, texts)
        first = next((it for it in said.split("\n") if re.match(r"fn .*: (not proved|no proof)", it)), "NOT REFUSED")
        print(f"{label}: {seconds:.1f} s ({stages})\n    {first[:200]}", flush=True)


if __name__ == "__main__":
    if len(sys.argv) < 2:
        sys.exit(__doc__)
    main(sys.argv[1], sys.argv[2:])
