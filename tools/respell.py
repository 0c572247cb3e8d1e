#!/usr/bin/env python3
"""Brings the names that port.py left to the spelling of today's Rattle, once, after port.py: words in snake case.

usage: python3 tools/respell.py          at the top of the repository: rewrites .antt, .rt and .edit files below crates/
       python3 tools/respell.py --map    prints old and new names, and writes nothing
       python3 tools/respell.py --docs   rewrites the names in README.md, docs/ (landings/ aside), compare/ and bindings/

Definitions, fields, constructors and lemmas that this repository declares are renamed; names of std, of src/ and those that Rattle makes are not.
A capital stays in the name of a type or a fact, and in letters that stand for one (`upTo64`).
A dash stays where it joins the names of two definitions, as in `length-joined`; else it becomes `_`.
Where two old names would fall together, TOLD has another name for one of them.
"""
import os
import re
import sys

# Names that fall together with another one, or with a field, a parameter or a word of std, and their new names.
TOLD = {
    "endNumbers": "end_numbers_of",
    "end-numbers": "end_numbers",
    "of-axis": "of_this_axis",
    "solved-c": "solved_c",
    "afterMinus": "minus_passed",
    "afterTwo": "two_taken",
    "all-axes": "all_axes_lem",
    "at-end": "at_end_lem",
    "at-start": "at_start_lem",
    "atStart": "at_start_of",
    "count-space": "count_space_lem",
    "derivative-at": "derivative_at_lem",
    "end-form": "end_form_lem",
    "endState": "end_state_of",
    "eval-poly": "eval_poly_lem",
    "every-pivot": "every_pivot_lem",
    "first-no": "first_no_lem",
    "firstRead": "first_column",
    "form-spelled": "form_spelled_lem",
    "in-digits": "in_digits_lem",
    "in-range": "in_range_lem",
    "input-read": "input_read_lem",
    "invDs": "inv_ds_of",
    "is-first": "is_first_lem",
    "is-zero": "is_zero_lem",
    "is_digit": "is_digit_lem",
    "is_open": "is_open_lem",
    "item-at": "item_at_lem",
    "lastRead": "last_column",
    "list-after": "list_after_lem",
    "list_at": "list_at_answer",
    "node-factors": "node_factors_lem",
    "node-solved": "node_solved_lem",
    "number-after": "number_after_lem",
    "output-of": "output_of_lem",
    "path-cells": "path_cells_lem",
    "place-of": "place_of_lem",
    "row_done": "row_done_lem",
    "solvedC": "solved_c_of",
    "square-sum": "square_sum_lem",
    "table-length": "table_length_lem",
    "upper-form": "upper_form_lem",
    "with-digit": "with_digit_lem",
}

HERE = os.path.dirname(os.path.dirname(os.path.abspath(__file__)))
TOKEN = re.compile(r"[^\s(){}\[\];,.λ\"«»⌜⌝`]+")
DECLARED = re.compile(r"^(\s*)((?:abbrev |unfoldable |pub )*)([^\s(){}\[\];,.λ\"«»:]+)((?: [^\s(){}\[\];,.λ\"«»:]+)*) : ")
WORD = re.compile(r"[a-z][A-Za-z0-9]*")


def files(*ends):
    for folder, dirs, names in os.walk(os.path.join(HERE, "crates")):
        dirs[:] = sorted(d for d in dirs if d != "out")
        for n in sorted(names):
            if n.endswith(ends):
                yield os.path.join(folder, n)


def read(p):
    with open(p, encoding="utf-8") as f:
        return f.read()


def declared():
    """Each name that specs/ and the lemma files of proofs/ declare, and whether a definition of it is an abbrev or unfoldable. (The names in a
    function's own folder below proofs/ are mostly Rattle's.)"""
    found = {}
    for p in files(".antt"):
        if re.search(r"/proofs/.+/", p):
            continue
        for line in read(p).split("\n"):
            if line.lstrip().startswith("--"):
                continue
            m = DECLARED.match(line)
            if m:
                for n in [m.group(3)] + m.group(4).split():
                    defines = "abbrev" in m.group(2) or "unfoldable" in m.group(2)
                    found[n] = found.get(n, False) or defines
    return found


def snake(word):
    """camelCase to snake_case; a word of one capital, as N in itemN, joins on as n."""
    if not re.match(r"^[a-z]", word):
        return word
    return re.sub(r"(?<=[a-z0-9])([A-Z])", lambda m: "_" + m.group(1).lower(), word)


def new_name(name, definitions):
    if name in TOLD:
        return TOLD[name]
    parts = name.split("-")
    if name.startswith("-") or name.endswith("-") or "" in parts:
        return name
    out = snake(parts[0]) if WORD.fullmatch(parts[0]) else parts[0]
    for a, b in zip(parts, parts[1:]):
        joins = a in definitions and b in definitions and not a.islower() or (a in LIBRARY and (b in definitions or b in LIBRARY))
        sign = "-" if joins or re.search(r"[^A-Za-z0-9_']", a + b) else "_"
        out += sign + (snake(b) if WORD.fullmatch(b) else b)
    return out


# functions of std that stand first in names of lemmas here
LIBRARY = {"length", "append", "drop", "take", "get_or", "set", "map", "reverse"}


def mapping():
    found = declared()
    definitions = {n for n in found if found[n]}
    return {n: new_name(n, definitions) for n in found if new_name(n, definitions) != n}


def turned(text, names, dashed, source=frozenset()):
    """source: the names of src/; behind a dot one of them keeps its spelling, also where an older Rattle wrote a dash."""
    def one(m):
        t = m.group(0)
        behind = m.start() > 0 and text[m.start() - 1] == "."
        if behind and "-" in t and t.replace("-", "_") in source:
            return t.replace("-", "_")
        return names[t] if t in names and (dashed or "-" not in t) else t
    return TOKEN.sub(one, text)


def source_names():
    return frozenset(w for p in files(".rt") for w in re.findall(r"[a-z][a-z0-9]*_[a-z0-9_]*", read(p)))


def turn_antt(text, names, source):
    lines = []
    for line in text.split("\n"):
        code, sign, comment = line.partition("--") if re.search(r"(^|\s)--(\s|$)", line) else (line, "", "")
        if sign and not re.match(r"(\s|$)", comment):
            code, sign, comment = line, "", ""
        lines.append(turned(code, names, True, source) + sign + turned(comment, names, False))
    return "\n".join(lines)


def turn_rt(text, names):
    lines, depth = [], 0
    for line in text.split("\n"):
        bare = line.lstrip()
        ghost = bare.startswith(("ghost ", "requires", "ensures")) or depth > 0
        if bare.startswith("//"):
            lines.append(turned(line, names, False))
        elif ghost:
            depth += line.count("{") - line.count("}")
            lines.append(turned(line, names, True))
        else:
            lines.append(line)
    return "\n".join(lines)


def turn_edit(text, names):
    antt = re.search(r"(?m)^file: .*\.antt", text)
    lines = []
    for line in text.split("\n"):
        m = re.match(r"(old|new): ", line)
        if m and (antt or re.search(r"(requires|ensures|ghost use)", line)):
            lines.append(line[:5] + turned(line[5:], names, True))
        elif m:
            lines.append(line)
        else:
            lines.append(turned(line, names, False))
    return "\n".join(lines)


def collisions(names):
    """Files in which a new name stood before it was one."""
    bad = []
    back = {}
    for old, new in names.items():
        back.setdefault(new, []).append(old)
    found = declared()
    for new, olds in sorted(back.items()):
        if len(olds) > 1 or new in found:
            bad.append(f"fall together: {new} <- {' '.join(olds)}{' (declared already)' if new in found else ''}")
    for p in files(".antt", ".rt"):
        tokens = set(TOKEN.findall(read(p)))
        for old in sorted(tokens & names.keys()):
            if names[old] in tokens:
                bad.append(f"{os.path.relpath(p, HERE)}: {old} -> {names[old]}, which stands there")
    return bad


def main(argv):
    if argv == ["--docs"]:
        import subprocess
        named = dict(l.split("\t") for l in read(os.path.join(HERE, "tools", "respelled.tsv")).splitlines())
        for p in subprocess.run(["git", "ls-files", "README.md", "docs", "compare", "bindings"], cwd=HERE, capture_output=True, text=True).stdout.split():
            if "landings" in p or p.endswith((".c", ".rs", "PORT.md")):
                continue
            p = os.path.join(HERE, p)
            text = read(p)
            new = re.sub(r"`[^`\n]*`", lambda m: turned(m.group(0), named, True), text)
            new = turned(new, named, False)
            if new != text:
                with open(p, "w", encoding="utf-8") as f:
                    f.write(new)
        return 0
    names = mapping()
    if argv == ["--map"]:
        for old, new in sorted(names.items()):
            print(f"{old}\t{new}")
        return 0
    if argv == ["--check"]:
        print("\n".join(collisions(names)))
        return 0
    source = source_names()
    for p in files(".antt", ".rt", ".edit"):
        text = read(p)
        new = turn_antt(text, names, source if re.search(r"/proofs/.+/", p) else frozenset()) if p.endswith(".antt") else turn_rt(text, names) if p.endswith(".rt") else turn_edit(text, names)
        if new != text:
            with open(p, "w", encoding="utf-8") as f:
                f.write(new)
    with open(os.path.join(HERE, "tools", "respelled.tsv"), "w", encoding="utf-8") as f:
        f.write("".join(f"{old}\t{new}\n" for old, new in sorted(names.items())))
    return 0


if __name__ == "__main__":
    raise SystemExit(main(sys.argv[1:]))
