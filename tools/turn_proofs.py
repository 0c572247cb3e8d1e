#!/usr/bin/env python3
"""Gives the hand-walked proofs of a crate the names that today's Rattle makes.

usage: python3 tools/turn_proofs.py NAME..      at the top of the repository, each NAME a crate whose dependencies are proved

For each function of the crate with a Proof.antt it reads names.json, which `rt check --generated DIR --old-names` writes, and turns
`tie.Need-OLD`, places (`tie.After-OLD`), steps (`c.before.OLD.ensures`), loops and arms to their new names. A file that has been turned
is left alone: its first line says so, until that line is taken out where the crate proves.
"""
import json
import os
import re
import subprocess
import sys
import tempfile

HERE = os.path.dirname(os.path.dirname(os.path.abspath(__file__)))
MARK = "-- turned\n"
W = r"[^\s(){}.;,@\"«»\[\]\\]+"


def dashed(name):
    return re.sub(r"-+", "-", name.replace("_", "-"))


def pairs(it):
    """old, in dashes, to new: of needs, places, steps, loops."""
    needs, places, steps, loops = {}, {}, {}, {}
    for old, new in it["needs"]:
        needs.setdefault(dashed(old), new)
    for place, new in zip(it["places"], it["places_by_name"]):
        places.setdefault(dashed(place[0]), new)
        step = place[2]
        if step and step[0]:
            steps.setdefault(dashed(step[0]), step[1])
    for names, _ in it["loops"]:
        loops.setdefault(dashed(names[0]), names[1])
    for d in (needs, places, loops):
        for new in list(d.values()):
            d.setdefault(dashed(new), new)
    return needs, places, steps, loops


def turned(text, it):
    needs, places, steps, loops = pairs(it)
    lost = set()

    def tie(m):
        word = m.group(1)
        for head in ("Need-", "calls-", "Live-"):
            if word.startswith(head):
                rest = dashed(word[len(head):])
                if head == "Need-" and rest in needs:
                    return "tie." + head + needs[rest]
                lost.add(word)
                return m.group(0)
        for head in ("invariant-", "decreases-"):
            if word.startswith(head) and dashed(word[len(head):]) in loops:
                return "tie." + head + loops[dashed(word[len(head):])]
        if dashed(word) in places:
            return "tie." + places[dashed(word)]
        if word not in ("spec", "close", "Start"):
            lost.add(word)
        return m.group(0)

    text = re.sub(r"tie\.(" + W + ")", tie, text)

    def field(m):
        word = dashed(m.group(1))
        before = re.search(W + "$", line[:m.start()])
        if before and before.group(0) in ("args", "requires", "ranges", "old", "new", "now", "ensures", "fn", "initial", "is", "given"):
            return m.group(0)
        if word in ("well-formed", "type-inv"):
            return "." + word.replace("-", "_")
        return "." + steps[word] if word in steps else m.group(0)

    lines = []
    for line in text.split("\n"):
        if line.startswith(("use ", "--")):
            lines.append(line)
            continue
        lines.append(re.sub(r"(?<![\s(\[{])\.(" + W + ")", field, line))
    return "\n".join(lines), lost


def main(argv):
    for crate in argv:
        where = os.path.join(HERE, "crates", crate)
        with tempfile.TemporaryDirectory() as d:
            subprocess.run(["rt", "check", "--generated", d, "--old-names"], cwd=where, stdout=subprocess.DEVNULL, stderr=subprocess.DEVNULL)
            p = os.path.join(d, "names.json")
            if not os.path.exists(p):
                print(f"{crate}: no names (are its dependencies proved?)")
                continue
            with open(p) as f:
                names = json.load(f)
        for key, it in names.items():
            path = re.sub(r"^Rattle-\w+-proofs\.(.*)\.Lts$", r"\1", key)
            p = os.path.join(where, "proofs", *path.split("."), "Proof.antt")
            if not os.path.exists(p):
                continue
            with open(p, encoding="utf-8") as f:
                text = f.read()
            if text.startswith(MARK):
                continue
            new, lost = turned(text, it)
            name = path.split(".")[-1]
            new = re.sub(r"(?<![^\s(])" + re.escape(dashed(name)) + r"-spec(?![^\s)])", name + "_spec", new)
            new = re.sub(r"\.pre(?![^\s.)(},;\]])", ".requires", new)
            with open(p, "w", encoding="utf-8") as f:
                f.write(MARK + new)
            print(f"{crate}::{path}: turned" + (f"; lost {' '.join(sorted(lost))}" if lost else ""))


if __name__ == "__main__":
    main(sys.argv[1:])
