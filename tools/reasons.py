#!/usr/bin/env python3
"""Of the places that tools/places.py counts, those that have a reason to stay beside them in the source, and those that have none.

usage: python3 tools/reasons.py [--point N].. [--without | --table] [ROOT]

A reason is a sentence with the word `stay` or `stays` in a comment: the one right above the function, type or constant that the place is in
or belongs to, or the one that its file begins with. Whether the sentence speaks of the place, and is a good one, is for a reader to judge:
each place is printed with the sentences found. --without prints only places that have none; --table prints only how many of each point have.
"""
import argparse
import re
from collections import defaultdict
from pathlib import Path

import places

ITEM = re.compile(r'\s*(pub(\(\w+\))?\s+)?(const\s+|unsafe\s+|extern\s+"C"\s+)*(fn|struct|enum|const)\s+\w')


def comment(lines):
    """The text of the comment lines that `lines` begins with."""
    found = []
    for line in lines:
        if not line.lstrip().startswith("//"):
            break
        found.append(line.strip()[2:].strip())
    return found


def above(lines, at):
    """The comment above the item that line `at` stands in, attributes aside."""
    while at > 0 and not ITEM.match(lines[at]):
        at -= 1
    while at > 0 and lines[at - 1].lstrip().startswith("#["):
        at -= 1
    return comment(lines[:at][::-1])[::-1]


def sentences(found):
    """The sentences with the word, each on one line."""
    parts = re.split(r"(?<=[.!?])(?=[)]? )[)]? |(?<=[.!?][)]) ", " ".join(found))
    return [part.strip(" ()") for part in parts if re.search(r"\bstays?\b", part)]


def reasons(root, where):
    """The reasons in reach of a place, those above its item first."""
    file, line = where.rsplit(":", 1)
    lines = (Path(root) / "crates" / file).read_text(encoding="utf-8").splitlines()
    return list(dict.fromkeys(sentences(above(lines, int(line) - 1)) + sentences(comment(lines))))


def main():
    parser = argparse.ArgumentParser(description=__doc__.splitlines()[0])
    parser.add_argument("root", nargs="?", default=".")
    parser.add_argument("--point", type=int, action="append", choices=range(1, 8))
    parser.add_argument("--without", action="store_true")
    parser.add_argument("--table", action="store_true")
    told = parser.parse_args()
    counts = defaultdict(lambda: [0, 0])
    for point, kind, where, text, *_ in places.places(told.root):
        if kind[0] == "~" or point not in (told.point or range(1, 8)):
            continue
        found = reasons(told.root, where)
        counts[point][not found] += 1
        if not told.table and not (told.without and found):
            print(f"{point} | {where}: {kind}: {text}")
            for sentence in [] if told.without else found:
                print(f"    {sentence}")
    for point, (kept, bare) in sorted(counts.items()):
        print(f"point {point} | with a reason {kept} | without {bare}")


if __name__ == "__main__":
    main()
