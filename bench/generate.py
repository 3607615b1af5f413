#!/usr/bin/env python3
"""Makes a table file and a query text for the program `replay`, the same ones for the same arguments.

    generate.py KIND MEMBERS BYTES DIRECTORY

KIND is 1 (amounts) or 2 (ticks). The text has exactly BYTES bytes, at most 65,536, and is such that a replay handles it to
its end: the answers and the log keep the room that the rules ask for before every line.
"""

import sys
from pathlib import Path

SIZES = {1: 65521, 2: 256}
WIDTHS = {1: 2, 2: 1}
TEXT = 65_536
# Answers and log may take this much at most, so that room is left before every line.
TAKEN = 65_536 - 512
REMARK = b"# of the hours that were paid, week after week, in the order in which the analysts asked\n"


class Generator:
    """Numbers by a linear congruence, so that they depend on nothing but the seed."""

    def __init__(self, seed):
        self.state = seed

    def below(self, limit):
        self.state = (self.state * 6364136223846793005 + 1442695040888963407) % 2**64
        return (self.state >> 33) % limit

    def chance(self, percent):
        return self.below(100) < percent


def make_table(numbers, kind, members):
    size, width = SIZES[kind], WIDTHS[kind]
    stored = [m for m in range(members) if numbers.chance(80)]
    bits = sum(1 << m for m in stored)
    head = bytes([kind, members]) + bits.to_bytes((members + 7) // 8, "little")
    return head + b"".join((1 + numbers.below(size - 1)).to_bytes(width, "big") for _ in stored)


def make_row(numbers, kind, members):
    """The items of a row of 2 to 4 members, one row in five with weights."""
    named = []
    while len(named) < 2 + numbers.below(3):
        m = numbers.below(members)
        if m not in named:
            named.append(m)
    weighted = numbers.chance(20)
    items = []
    for m in named:
        weight = 1 + numbers.below(SIZES[kind] - 1) if weighted and numbers.chance(50) else 1
        items.append(f" {m}" if weight == 1 else f" {m}:{weight}")
    return "".join(items)


def make_line(numbers, kind, members, rows):
    """A query line, the most that it can print after its number, and the most that it can log."""
    if numbers.below(400) == 0:
        line = f"w {numbers.below(members)} {numbers.below(SIZES[kind])}"
        return line, 2 + 6 * members, 0
    # one row in three is one of the first again, which was answered as a rule
    if len(rows) >= members and numbers.chance(33):
        row = rows[numbers.below(members)]
    else:
        row = make_row(numbers, kind, members)
        rows.append(row)
    if numbers.chance(10):
        return "t" + row, len("- 11 63"), 0
    weights = row.count(" ") if ":" in row else 0
    return "a" + row, len("= 65520"), 1 + (members + 7) // 8 + WIDTHS[kind] * (weights + 1)


def remarks(length):
    """Remarks of that many bytes, of which there are not 1."""
    text = b""
    while length > len(REMARK) + 1:
        text += REMARK
        length -= len(REMARK)
    return text + (b"#" * (length - 1) + b"\n" if length else b"")


def make_text(numbers, kind, members, length):
    text, rows = bytearray(), []
    lines = printed = logged = 0
    while True:
        line, reply, log = make_line(numbers, kind, members, rows)
        added = (b"# next\n" if numbers.chance(2) else b"") + line.encode() + b"\n"
        printed += len(f"{lines + 2} ") + reply + 1
        logged += log
        # remarks keep the text ahead of what it can print and log, part for part
        if len(text) < max(printed, logged) * TEXT // TAKEN:
            added = REMARK * (1 + reply // len(REMARK)) + added
        # what is left for the last remarks is no single byte
        if len(text) + len(added) > length - 2:
            return bytes(text) + remarks(length - len(text))
        text += added
        lines += added.count(b"\n")


def main():
    kind, members, length, directory = int(sys.argv[1]), int(sys.argv[2]), int(sys.argv[3]), Path(sys.argv[4])
    numbers = Generator(1000 * kind + members)
    directory.mkdir(parents=True, exist_ok=True)
    (directory / "table.dat").write_bytes(make_table(numbers, kind, members))
    (directory / "queries.txt").write_bytes(make_text(numbers, kind, members, length))


if __name__ == "__main__":
    main()
