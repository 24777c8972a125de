#!/usr/bin/env python3
"""Makes a case file from a readable text, and prints a case file as that text.

    python3 tools/case.py make TEXT > CASE      python3 tools/case.py show CASE

The text has one entry a line; `#` begins a comment:

    profile 0           one byte, 0 to 255
    weekday 0           one byte
    means 1000 950 -30  daily means in hundredths of a degree, oldest first; the line may be repeated
    reading 0 500       boundary and count in Wh, in the order of the file
    cut 1               boundary

A number has to fit its field, and nothing else is checked: whether the file is a sound case is the reader's to say.
"""
import struct
import sys

MOST = 1 << 24  # bytes of an input: five times the longest text without comments


class Bad(Exception):
    """Input that cannot be converted; the message says where and why."""


def quoted(word):
    """A word as a message shows it: on one line, and not all of a long one."""
    return ascii(word if len(word) <= 30 else word[:27] + "...")


def whole(word, least, most, where):
    """The whole number that a word spells, if it lies from least to most."""
    digits = word[1:] if word.startswith("-") else word
    if not (digits.isascii() and digits.isdigit()):
        raise Bad(f"{where}: {quoted(word)} is no whole number")
    # No field holds 21 digits, and int refuses some thousands of them.
    digits = digits.lstrip("0")[:21] or "0"
    value = -int(digits) if word.startswith("-") else int(digits)
    if not least <= value <= most:
        raise Bad(f"{where}: {quoted(word)} is outside {least} to {most}")
    return value


def decoded(data):
    """The text of these bytes: UTF-8, with or without a byte order mark, its lines ended in any of the usual ways."""
    data = data.replace(b"\r\n", b"\n").replace(b"\r", b"\n")
    try:
        return data.decode("utf-8-sig")
    except UnicodeDecodeError as error:
        raise Bad(f"line {error.object[:error.start].count(10) + 1}: no text in UTF-8") from error


def parse(text):
    """The fields that a text names: (profile, weekday, means, readings, cuts)."""
    single = {"profile": None, "weekday": None}
    means, readings, cuts = [], [], []
    for number, line in enumerate(text.split("\n"), 1):
        words = line.split("#", 1)[0].split()
        if not words:
            continue
        where, name, rest = f"line {number}", words[0], words[1:]
        if name in single:
            if len(rest) != 1:
                raise Bad(f"{where}: '{name}' takes one number")
            if single[name] is not None:
                raise Bad(f"{where}: a second '{name}'")
            single[name] = whole(rest[0], 0, 255, where)
        elif name == "means":
            means += [whole(w, -32768, 32767, where) for w in rest]
        elif name == "reading":
            if len(rest) != 2:
                raise Bad(f"{where}: 'reading' takes a boundary and a count")
            readings.append((whole(rest[0], 0, 65535, where), whole(rest[1], 0, 2**64 - 1, where)))
        elif name == "cut":
            if len(rest) != 1:
                raise Bad(f"{where}: 'cut' takes a boundary")
            cuts.append(whole(rest[0], 0, 65535, where))
        else:
            raise Bad(f"{where}: unknown entry {quoted(name)} (profile, weekday, means, reading or cut)")
    for name, value in single.items():
        if value is None:
            raise Bad(f"no '{name}' line")
    for name, section in (("means", means), ("readings", readings), ("cuts", cuts)):
        if len(section) > 65535:
            raise Bad(f"{len(section)} {name}: a section holds at most 65535")
    return single["profile"], single["weekday"], means, readings, cuts


def make(text):
    """The bytes of the case file that a text names."""
    profile, weekday, means, readings, cuts = parse(text)
    parts = [struct.pack("<BB", profile, weekday), struct.pack("<H", len(means))]
    parts += [struct.pack("<h", mean) for mean in means]
    parts.append(struct.pack("<H", len(readings)))
    parts += [struct.pack("<HQ", boundary, count) for boundary, count in readings]
    parts.append(struct.pack("<H", len(cuts)))
    parts += [struct.pack("<H", boundary) for boundary in cuts]
    return b"".join(parts)


def show(data):
    """The text that names the bytes of a case file."""
    at = 0

    def take(form, what):
        nonlocal at
        size = struct.calcsize(form)
        if len(data) < at + size:
            raise Bad(f"the file ends at byte {len(data)}, within {what}")
        values = struct.unpack_from(form, data, at)
        at += size
        return values

    profile, = take("<B", "the profile")
    weekday, = take("<B", "the weekday")
    lines = [f"profile {profile}", f"weekday {weekday}"]
    count, = take("<H", "the count of means")
    means = [take("<h", f"mean {i}")[0] for i in range(count)]
    for i in range(0, count, 12):
        lines.append("means " + " ".join(str(mean) for mean in means[i:i + 12]))
    count, = take("<H", "the count of readings")
    for i in range(count):
        boundary, value = take("<HQ", f"reading {i}")
        lines.append(f"reading {boundary} {value}")
    count, = take("<H", "the count of cuts")
    for i in range(count):
        boundary, = take("<H", f"cut {i}")
        lines.append(f"cut {boundary}")
    if at < len(data):
        raise Bad(f"{len(data) - at} bytes are left over from byte {at} on")
    return "\n".join(lines) + "\n"


def main(arguments):
    if len(arguments) != 2 or arguments[0] not in ("make", "show"):
        print(__doc__.strip(), file=sys.stderr)
        return 2
    command, name = arguments
    try:
        with open(name, "rb") as file:
            data = file.read(MOST + 1)
        if len(data) > MOST:
            raise Bad(f"more than {MOST} bytes")
        result = make(decoded(data)) if command == "make" else show(data).encode()
    except (OSError, Bad) as error:
        return f"{name}: {error.strerror if isinstance(error, OSError) else error}"
    try:
        with open(1, "wb", closefd=False) as out:
            out.write(result)
    except OSError as error:
        return f"standard output: {error.strerror}"
    return 0


if __name__ == "__main__":
    sys.exit(main(sys.argv[1:]))
