#!/usr/bin/env python3
"""Prints the lists of docs/DESIGN-PASS.md under `Old and new, side by side`, from two checkouts.

usage: python3 tools/side_by_side.py PORT OLD NEW

PORT is the kit's folder with contracts.py, whose reading of functions, ghost items and definitions this uses; OLD and NEW are the checkouts.
A function is found again at its place, else by its name in the crate, else by its name alone where only one has it. A function, ghost item or
definition that stands with the same words is left out, wherever it stands; so is one that went, which the page lists by hand.
"""
import re
import sys
import textwrap
from collections import defaultdict
from pathlib import Path


def wrapped(text, first="", more="    "):
    return textwrap.fill(text, 150, initial_indent=first, subsequent_indent=more, break_long_words=False, break_on_hyphens=False)


def shown(key, function, label=""):
    """A function with its clauses, each on as few lines as it takes."""
    _, _, place, name = key
    sign = re.sub(r",? \)", ")", function["sign"].replace("( ", "("))
    lines = [wrapped(label + (f"{place}::" if place else "") + name + sign)]
    for kind in "requires", "ensures":
        for _, named, text in function[kind]:
            lines.append(wrapped(" ".join(p for p in (kind, named) if p) + f" {{ {text} }}", " " * 8, " " * 12))
    return "\n".join(lines)


def said(function):
    return function["sign"], sorted(c[1:] for k in ("requires", "ensures") for c in function[k])


def public(root, functions):
    """The functions that their files declare as `pub`, and those of impls of traits."""
    found = []
    for key, same in sorted(functions.items()):
        crate, path, place, name = key
        text = (Path(root) / "crates" / crate / path).read_text(encoding="utf-8")
        if " for " in place or re.search(rf'\bpub (const |unsafe |extern "C" )*fn {name}\b', text):
            found += [(key, f) for f in same if not f["test"]]
    return found


def paired(old, new):
    """Pairs of public functions, and the new ones without a partner."""
    left, pairs = list(new), []
    rules = (lambda a, b: a == b, lambda a, b: (a[0], a[3]) == (b[0], b[3]), lambda a, b: a[3] == b[3])
    for number, same in enumerate(rules):
        rest = []
        for a, x in old:
            found = [entry for entry in left if same(a, entry[0])]
            if len(found) == 1 or found and number < 2:
                left.remove(found[0])
                pairs.append(((a, x), found[0]))
            else:
                rest.append((a, x))
        old = rest
    return pairs, left


def block(title, rows):
    print(f"\n### {title}\n\n```text")
    print("\n".join(rows))
    print("```")


def by_crate(title, rows):
    """Rows of old and new under the crate that they are of."""
    crates = defaultdict(list)
    for crate, text in rows:
        crates[crate].append(text)
    print(f"\n### {title}")
    for crate, texts in sorted(crates.items()):
        print(f"\n`{crate}`\n\n```text")
        print("\n".join(texts))
        print("```")


def main():
    port, old_root, new_root = sys.argv[1:]
    sys.path.insert(0, port)
    import contracts

    _, old, old_ghosts, old_specs, _, _ = contracts.read(old_root)
    _, new, new_ghosts, new_specs, _, _ = contracts.read(new_root)
    pairs, left = paired(public(old_root, old), public(new_root, new))
    changed = [(b[0], shown(a, x, "old ") + "\n" + shown(b, y, "new ")) for (a, x), (b, y) in pairs if said(x) != said(y)]
    by_crate("Public functions", sorted(changed))
    block("New public functions", [shown(k, f, f"{k[0]}: ") for k, f in left])
    ghosts = [(k, v) for k, v in sorted(new_ghosts.items()) if v != old_ghosts.get(k) and v not in [w for q, w in old_ghosts.items() if q[1:] == k[1:]]]
    block("Ghost fields and members that are new", [wrapped(" ".join(k) + ": " + t) for k, v in ghosts for t in v])
    texts = defaultdict(list)
    for (crate, name), found in old_specs.items():
        texts[name] += found
    rows, fresh = [], []
    for (crate, name), found in sorted(new_specs.items()):
        for text in found:
            if text in texts[name]:
                continue
            before = [t for t in old_specs.get((crate, name), []) if t not in new_specs[crate, name]]
            if before:
                rows.append((crate, wrapped("old " + before[0]) + "\n" + wrapped("new " + text)))
            else:
                fresh.append(wrapped(f"{crate}: {text}"))
    by_crate("Definitions", rows)
    block("New definitions", fresh)


if __name__ == "__main__":
    main()
