#!/usr/bin/env python3
"""Tries each wrong program of the must-fail edits alone.

    python3 tools/wrong_programs.py [CRATE ..]

An edit of the gate holds several wrong programs of its crate, at most one in a function, a definition or a field, each after a line `# NAME: what is wrong`. The gate
shows that every edit is refused, proved from nothing. This makes one wrong program after the other in copies of the repository and has
`rt check` check the crate, which checks again only what that touches: each must be refused, and not because a proof no longer fits the code's
form.
"""
import concurrent.futures
import os
import queue
import re
import shutil
import subprocess
import sys
import tempfile

ROOT = os.path.dirname(os.path.dirname(os.path.abspath(__file__)))
# What the prover says where an edit changed the goals of a function, so that its proof file does not fit any more: a goal or a variable is gone, or what
# cites it was not checked; or where the edit does not compile.
UNFIT = ("that can be named from here", "` has no field `", "is not in scope", "was not admitted", "was not checked", "were not checked", ": error[")
# Said here where the check broke off without an error.
NOTHING = "no error was printed"


def wrong_programs(crate):
    """The wrong programs of a crate's edits: name, and for each its files with the texts to exchange."""
    folder = os.path.join(ROOT, "crates", crate, "must-fail")
    for name in sorted(os.listdir(folder)) if os.path.isdir(folder) else []:
        with open(os.path.join(folder, name), encoding="utf-8") as file:
            text = file.read()
        for block in re.split(r"(?m)^(?=# )", text)[1:]:
            pairs, path, old = [], None, None
            for line in block.splitlines():
                kind, _, rest = line.partition(": ")
                if kind == "file":
                    path = rest
                elif kind == "old":
                    old = rest
                elif kind.rstrip(":") == "new":
                    pairs.append((path, old, rest))
            yield re.match(r"# ([\w-]+):", block).group(1), pairs


def unfit(first):
    """Whether the first thing that is wrong is a proof that does not fit the code's form, or code that does not compile."""
    return any(sign in first for sign in UNFIT)


def check(copy, crate):
    """Whether the crate is proved, and the first fact that does not hold, or else the first thing that is wrong."""
    done = subprocess.run(["rt", "check", "--jobs", "1"], cwd=os.path.join(copy, "crates", crate), capture_output=True, text=True)
    wrong = [line for line in (done.stdout + done.stderr).splitlines() if re.search(r": error[:[]|: it is not proved that |: no proof: expected ", line)]
    facts = [line for line in wrong if not unfit(line)]
    return done.returncode == 0, (facts or wrong)[0].replace(copy + "/", "") if wrong else NOTHING


def check_with(copy, crate, texts):
    """Checks the crate with these files written over, and puts them back."""
    kept = {}
    for path, text in texts.items():
        place = os.path.join(copy, "crates", crate, path)
        with open(place, encoding="utf-8") as file:
            kept[place] = file.read()
        with open(place, "w", encoding="utf-8") as file:
            file.write(text)
    try:
        return check(copy, crate)
    finally:
        for place, text in kept.items():
            with open(place, "w", encoding="utf-8") as file:
                file.write(text)


def exchanged(crate, pairs):
    """The files of the crate that these exchanges of texts change, as they are then."""
    texts = {}
    for path, old, new in pairs:
        if path not in texts:
            with open(os.path.join(ROOT, "crates", crate, path), encoding="utf-8") as file:
                texts[path] = file.read()
        if texts[path].count(old) != 1:
            raise SystemExit(f"{crate}: {old!r} is not once in {path}")
        texts[path] = texts[path].replace(old, new)
    return texts


def in_copies(task, items):
    """What the task says of each item, with a copy of the repository to try it in."""
    with tempfile.TemporaryDirectory() as scratch, concurrent.futures.ThreadPoolExecutor(os.cpu_count()) as pool:
        copies = queue.Queue()
        for number in range(os.cpu_count()):
            copy = os.path.join(scratch, str(number))
            shutil.copytree(ROOT, copy, ignore=shutil.ignore_patterns(".git", "reference", "out", "target"), symlinks=True)
            copies.put(copy)

        def in_copy(item):
            copy = copies.get()
            try:
                return task(copy, item)
            finally:
                copies.put(copy)

        return list(pool.map(in_copy, items))


def try_crate(copy, crate):
    """The number of wrong programs of a crate, and how many of them were not refused by a fact."""
    count = missed = 0
    if not check(copy, crate)[0]:
        raise SystemExit(f"{crate} is not proved as it is")
    for name, pairs in wrong_programs(crate):
        proved, first = check_with(copy, crate, exchanged(crate, pairs))
        verdict = "NOT REFUSED" if proved else "UNFIT" if unfit(first) or first == NOTHING else "refused"
        count, missed = count + 1, missed + (verdict != "refused")
        print(f"{crate}/{name}: {verdict} ({first[:110]})", flush=True)
    return count, missed


def main(crates):
    if not crates:
        with open(os.path.join(ROOT, "crates.txt"), encoding="utf-8") as file:
            crates = [line.split(":")[0].split()[0] for line in file if ":" in line and not line.startswith("#")]
    crates = sorted((crate for crate in crates if list(wrong_programs(crate))), key=lambda crate: -len(list(wrong_programs(crate))))
    results = in_copies(try_crate, crates)
    count, missed = (sum(column) for column in zip(*results))
    print(f"{count - missed} refused, {missed} not")
    return missed != 0


if __name__ == "__main__":
    sys.exit(main(sys.argv[1:]))
