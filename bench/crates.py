#!/usr/bin/env python3
"""Prints a table of the crates in the order in which they stand on one another: depth, functions
outside tests, lines of code, of definitions and of proofs, must-fail edits.

With --check it also clones HEAD into a temporary folder, checks each crate there from nothing,
one after another, and prints the seconds of each check: those that passed, and those that the
processors worked (half an hour on a quiet machine). What the kit keeps of earlier runs on this
machine is hidden from these checks, which needs root.
"""

import os
import re
import resource
import subprocess
import sys
import tempfile
import time
from pathlib import Path

ROOT = Path(__file__).resolve().parent.parent


def supports():
    """Each crate of crates.txt, with those of the repository that it names."""
    named = {}
    for line in (ROOT / "crates.txt").read_text().splitlines():
        line = line.split("#")[0].strip()
        if line:
            crate, _, rest = line.partition(":")
            named[crate.split()[0]] = rest.split()
    return {crate: [x for x in rest if x in named] for crate, rest in named.items()}


def depths(graph):
    known = {}

    def depth(crate):
        if crate not in known:
            known[crate] = 1 + max((depth(below) for below in graph[crate]), default=0)
        return known[crate]

    for crate in graph:
        depth(crate)
    return known


def lines(crate, part, ending):
    files = (ROOT / "crates" / crate / part).rglob("*" + ending)
    return sum(len(file.read_text().splitlines()) for file in files)


def functions(crate):
    """The functions of a crate, without those of its tests."""
    files = list((ROOT / "crates" / crate / "src").rglob("*.rt"))
    tests = {name for file in files for name in re.findall(r"#\[cfg\(test\)\]\nmod (\w+);", file.read_text())}
    return sum(len(re.findall(r"^\s*(?:pub(?:\(crate\))? )?(?:const )?fn \w", file.read_text(), re.M)) for file in files if file.stem not in tests)


def worked():
    usage = resource.getrusage(resource.RUSAGE_CHILDREN)
    return usage.ru_utime + usage.ru_stime


def seconds(clone, crate):
    """How long a check takes, and how long the processors work on it."""
    start, before = time.monotonic(), worked()
    done = subprocess.run(["rt", "check"], cwd=clone / "crates" / crate, capture_output=True, text=True)
    if done.returncode != 0:
        sys.exit(f"{crate} isn't proved:\n{done.stdout[-2000:]}{done.stderr[-2000:]}")
    return time.monotonic() - start, worked() - before


def table(clone):
    graph = supports()
    depth = depths(graph)
    print("| Depth | Crate | Functions | Code | Definitions | Proofs | Edits |" + (" First check | Processors |" if clone else ""))
    print("|---|---|---|---|---|---|---|" + ("---|---|" if clone else ""))
    for crate in sorted(graph, key=lambda name: (depth[name], name)):
        edits = len(list((ROOT / "crates" / crate / "must-fail").glob("*.edit")))
        row = f"| {depth[crate]} | `{crate}` | {functions(crate)} | {lines(crate, 'src', '.rt')} | {lines(crate, 'specs', '.antt')} | {lines(crate, 'proofs', '.antt')} | {edits} |"
        if clone:
            passed, work = seconds(clone, crate)
            row += f" {passed:.0f} s | {work:.0f} s |"
        print(row, flush=True)


def hide_kept():
    """Hides what the kit keeps of earlier runs on this machine from this process and its children."""
    if "--hidden" not in sys.argv[1:]:
        os.execvp("unshare", ["unshare", "--mount", sys.executable, *sys.argv, "--hidden"])
    page = subprocess.run(["rt", "doc"], capture_output=True, text=True, check=True).stdout.strip()
    kept = Path(page).parent.parent / "rattle-kept"
    if kept.is_dir():
        subprocess.run(["mount", "-t", "tmpfs", "none", str(kept)], check=True)


def main():
    if "--check" not in sys.argv[1:]:
        table(None)
        return
    hide_kept()
    with tempfile.TemporaryDirectory() as folder:
        clone = Path(folder) / "vublk"
        subprocess.run(["git", "clone", "-q", str(ROOT), str(clone)], check=True)
        table(clone)


if __name__ == "__main__":
    main()
