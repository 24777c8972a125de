#!/usr/bin/env python3
"""Changes one thing in the code of a crate at a time, and lists the changes that the prover lets pass.

    python3 tools/small_changes.py CRATE ..

A change is another comparison, operation or number, a statement left out, or the first two arguments of a call exchanged, in the body of a
function; contracts and definitions stay. Each changed crate is checked by `rt check` in a copy of the repository. One that is proved computes the
same, or a contract says too little. One that does not compile, or that leaves a proof without the form of its code, tells nothing.
"""
import glob
import os
import re
import sys

from wrong_programs import NOTHING, ROOT, check_with, in_copies, unfit

OTHERS = {
    "<": "<=", "<=": "<", ">": ">=", ">=": ">", "==": "!=", "!=": "==",
    "+": "-", "-": "+", "*": "+", "/": "*", "%": "/", "<<": ">>", ">>": "<<", "&&": "||", "||": "&&",
    "+=": "-=", "-=": "+=",
}
OPERATION = re.compile(r"(?<= )(" + "|".join(sorted(map(re.escape, OTHERS), key=len, reverse=True)) + r")(?= )")
NUMBER = re.compile(r"(?<![\w.'\[])\d[\d_]*(?![\w.'])")
WORD = re.compile(r"\b(true|false)\b")
ARGUMENTS = re.compile(r"(?<=\w\()([^(),]+), ([^(),]+)(?=[,)])")


def bodies(lines):
    """The numbers of the lines in the bodies of functions. In the layout of `rt fmt` the first line that ends with a brace opens a body."""
    depth = inside = None
    for number, line in enumerate(lines):
        if depth is None:
            if re.match(r'\s*(pub(\(crate\))? )?(extern "C" )?fn ', line):
                depth = len(line) - len(line.lstrip())
                inside = line.endswith("{")
        elif not inside:
            inside = line.endswith("{")
        elif line == " " * depth + "}":
            depth = None
        elif not line.lstrip().startswith("//"):
            yield number


def changed(line):
    """The lines that differ from this one in one thing."""
    for found in OPERATION.finditer(line):
        yield line[:found.start()] + OTHERS[found.group()] + line[found.end():]
    for found in NUMBER.finditer(line):
        yield line[:found.start()] + str(int(found.group().replace("_", "")) + 1) + line[found.end():]
    for found in WORD.finditer(line):
        yield line[:found.start()] + {"true": "false", "false": "true"}[found.group()] + line[found.end():]
    for found in ARGUMENTS.finditer(line):
        yield line[:found.start()] + found.group(2) + ", " + found.group(1) + line[found.end():]
    if re.match(r"\s*[^=(]*(=|\+=|-=) .*;$|\s*[\w:]+\(.*\);$", line) and not line.lstrip().startswith(("let ", "return")):
        yield ""


def changes(crate):
    for place in sorted(glob.glob(os.path.join(ROOT, "crates", crate, "src", "**", "*.rt"), recursive=True)):
        path = os.path.relpath(place, os.path.join(ROOT, "crates", crate))
        with open(place, encoding="utf-8") as file:
            lines = file.read().split("\n")
        for number in bodies(lines):
            for other in changed(lines[number]):
                if other != lines[number]:
                    yield crate, path, number, lines[number], other, "\n".join(lines[:number] + [other] + lines[number + 1:])


def try_change(copy, change):
    crate, path, number, line, other, text = change
    proved, first = check_with(copy, crate, {path: text})
    compiled = first != NOTHING and ": error[" not in first
    verdict = "proved" if proved else "not compiled" if not compiled else "unfit" if unfit(first) else "refused"
    print(f"{verdict}: {crate}/{path}:{number + 1}: {line.strip()} => {other.strip()}", flush=True)
    return verdict


def main(crates):
    tried = [change for crate in crates for change in changes(crate)]
    verdicts = in_copies(try_change, tried)
    counted = {verdict: verdicts.count(verdict) for verdict in ("refused", "unfit", "not compiled", "proved")}
    print(", ".join(f"{count} {verdict}" for verdict, count in counted.items()))


if __name__ == "__main__":
    sys.exit(main(sys.argv[1:]))
