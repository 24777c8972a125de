#!/usr/bin/env python3
"""Brings the repository's own definitions and lemmas to today's spelling: words in snake case. Run once, at the top, after port.py."""
import glob
import re
import sys

TOKEN = re.compile(r"[^\s(){}\[\];,.«»\"`⌜⌝]+")
DECLARED = re.compile(
    r"\s*(?:(?:abbrev|unfoldable|pub|record|data|module)\s+)*([^\s(){}:;,.\[\]]+)(?:\s*\{[^}]*\}|\s+\([^)]*\)|\s+\{[^}]*\})*\s*:(?:\s|$)"
)
ANSWER = re.compile(r":\s*tie\.(Need|invariant|decreases)")
# Where two names fall together, or the new name would be a name of the library that stands beside it.
OTHERWISE = {
    "value_low": "low_bound",
    "lower_of": "lower_of_lem",
    "upper_of": "upper_of_lem",
    "all-zero": "zero_throughout",
    "count-fault": "count_fault_lem",
    "cut-number": "cut_number_lem",
    "cut-offset": "cut_offset_lem",
    "cuts-offset": "cuts_offset_lem",
    "cuts-start": "cuts_start_lem",
    "first-fault": "first_fault_lem",
    "first-means": "first_means_lem",
    "good-marks": "good_marks_lem",
    "head-fault": "head_fault_lem",
    "how-many": "in_number",
    "last-less-first": "last_less_first_lem",
    "means-length": "means_length_lem",
    "near-one": "near_one_lem",
    "no-fault": "no_fault_lem",
    "of-ratio": "of_ratio_lem",
    "ratio-one": "ratio_one_lem",
    "reading-number": "reading_number_lem",
    "reading-offset": "reading_offset_lem",
    "reading-rows": "reading_rows_lem",
    "readings-offset": "readings_offset_lem",
    "readings-start": "readings_start_lem",
    "table-says": "table_says_lem",
    "value-high": "high_bound",
    "value-most": "value_most_lem",
    "in-range": "in_range_lem",
}


def antt():
    for folder in ("specs", "proofs"):
        yield from glob.glob(f"crates/*/{folder}/**/*.antt", recursive=True)


def snake(name):
    if name in OTHERWISE:
        return OTHERWISE[name]
    out = name.replace("-", "_").replace("′", "'")
    if out[0].islower():
        out = re.sub(r"([a-z0-9])([ℤℕ])", r"\1_\2", out)
        out = re.sub(r"([a-z0-9])([A-Z])", lambda m: m.group(1) + "_" + m.group(2).lower(), out)
    return out


def code(line):
    return line.split("--")[0] if line.lstrip().startswith("--") else line


def declared():
    names = {}
    for path in antt():
        for line in open(path, encoding="utf-8"):
            text = line.strip()
            if text.startswith("--") or text.startswith("use ") or ANSWER.search(line):
                continue
            m = DECLARED.match(line)
            if m and m.group(1) not in ("let", "λ", "in", "module", "_", "where"):
                names.setdefault(m.group(1), set()).add(path)
    return names


def library_names(text, crates):
    """What a file takes from the library: these keep their spelling there."""
    taken = set()
    for m in re.finditer(r"use ([^\s;{]+)\.\{([^}]*)\}", text):
        head = m.group(1).split(".")
        if head[0] == "Rattle" and len(head) > 1 and head[1] in crates:
            continue
        for item in m.group(2).split(","):
            for part in item.split(" as "):
                taken.add(part.strip())
    return taken


def main():
    crates = {p.split("/")[1] for p in glob.glob("crates/*/src")}
    names = declared()
    table = {}
    for name in names:
        if "-" in name or "′" in name or (name[0].islower() and re.search(r"[A-Zℤℕ]", name)):
            table[name] = snake(name)
    table.update({name: new for name, new in OTHERWISE.items() if "-" not in name})
    if "--table" in sys.argv:
        for old in sorted(table):
            print(old, table[old])
        return
    known = set(names) | set(table.values())

    def word(token, keep):
        if token in keep:
            return token
        if token in table:
            return table[token]
        return token

    def quoted(m, keep):
        """A name in backticks, in a comment or a page; what quotes the papers stays."""

        def one(t):
            token = t.group(0)
            if token in table and token not in keep:
                return table[token]
            return snake(token) if "-" in token and snake(token) in known else token

        return re.sub(r"[^\s(){}\[\];:,.«»\"`⌜⌝]+", one, m.group(0))

    paths = list(antt()) + glob.glob("crates/*/src/**/*.rt", recursive=True) + glob.glob("crates/*/must-fail/*.edit")
    paths += ["README.md"] + glob.glob("docs/**/*.md", recursive=True)
    for path in paths:
        text = open(path, encoding="utf-8").read()
        keep = library_names(text, crates) if path.endswith((".antt", ".rt")) else set()
        if not path.endswith(".antt"):
            keep = keep | {name for name in OTHERWISE if "-" not in name}
        lines = text.split("\n")
        for i, line in enumerate(lines):
            prose = path.endswith(".md") or re.match(r"\s*(--|//|#)", line)
            if prose:
                lines[i] = re.sub(r"`[^`]*`", lambda m: quoted(m, keep), line)
                continue
            at = line.find(" -- ") if path.endswith((".antt", ".edit")) else -1
            head, tail = (line, "") if at < 0 else (line[:at], line[at:])
            lines[i] = TOKEN.sub(lambda m: word(m.group(0), keep), head) + re.sub(r"`[^`]*`", lambda m: quoted(m, keep), tail)
        new = "\n".join(lines)
        if new != text:
            open(path, "w", encoding="utf-8").write(new)


main()
