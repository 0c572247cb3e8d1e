#!/usr/bin/env python3
"""Adds the impossible clauses that `rt check` prints, to the lemmas that lack them.

usage: python3 tools/mend_clauses.py NAME < OUTPUT     OUTPUT: what rt check said of the crate NAME
"""
import os
import re
import sys

HERE = os.path.dirname(os.path.dirname(os.path.abspath(__file__)))


def main(crate):
    adds, at = {}, None
    for line in sys.stdin.read().split("\n"):
        m = re.match(r"\./(\S+\.antt):(\d+):(\d+): error: `([^`]+)`: write the clause", line)
        if m:
            at = (m.group(1), int(m.group(2)), m.group(4))
            one = re.search(r"write the clause `(.*)`$", line)
            adds[at] = [one.group(1)] if one else []
            continue
        if at and line.startswith("  ") and line.strip().split(" ")[0] == at[2]:
            adds[at].append(line.strip())
        elif at and re.match(r"\S", line):
            at = None
    for (p, n, name), clauses in sorted(adds.items(), key=lambda it: -it[0][1]):
        if not clauses:
            continue
        full = os.path.join(HERE, "crates", crate, p)
        with open(full, encoding="utf-8") as f:
            lines = f.read().split("\n")
        indent = re.match(r"\s*", lines[n - 1]).group(0)
        lines[n - 1:n - 1] = [indent + c.replace("lib.Ieee.", "") for c in clauses]
        with open(full, "w", encoding="utf-8") as f:
            f.write("\n".join(lines))
        print(f"{p}:{n}: {len(clauses)} clauses of {name}")


if __name__ == "__main__":
    main(sys.argv[1])
