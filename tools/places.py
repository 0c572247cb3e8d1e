#!/usr/bin/env python3
"""Lists and counts, in crates/*/src of a checkout, the places where a newer form of the language may be plainer.

usage: python3 tools/places.py [--point N].. [--table] [ROOT]

ROOT is the top of a checkout of any commit, by default the current directory; --point keeps only these points, 1 to 7.
A place is printed as `crate/src/file.rt:line: kind: text`; --table prints only point, kind and count.
Kinds that begin with ~ are listed for the reader and left out of a point's total. Of a group each function is one place.
The rules go by the text alone, comments and strings aside, so a place may turn out to be none.

1. Option, Result, flags and numbers for kinds. enum: two or three variants, one of them carrying something and one either bare, or named as
   in EMPTY, or carrying `number: u32` or `at: usize`; ~enum: any other, and one named as in ERRORS, which may be a Result's.
   number field: `number: u32` in a struct beside another field.
   number returned: a function to u32, or to another number type with a name that speaks of a number, questions, a fault or a check.
   number asked: `number` compared with 0. kind as number: a parameter or field of a number type named as in KINDS.
   flag: a bool field beside another field, or a bool in a returned tuple; ~flag parameter: a bool beside another parameter.
2. Twins. twins: functions of equal bodies after numbers, characters, strings and constants became N, types and variants T, called functions
   f0, f1.. and other names p0, p1.. in order of appearance; paths lose their prefixes, fields and methods keep their names, and a last
   `return` in an `if` counts as its `else`. A group is `same` if the called functions have equal names too, a type's suffix aside, else `calls`.
   ~too small: bodies under 5 tokens, under 10 if all are calls, and those that only fill a struct with parameters or hand them on.
   constant: constants of equal type and value.
3. Loops. index by hand: a `while` with a variable in its condition that the body moves by 1, and a `loop` with any such step; ~loop: any other.
   range for one slice: `for i in a..b` with i in the body as index of one slice only; ~for: any other.
4. Equality, order, copying, conversion, printing. Functions named as in DERIVED are the newer form and are left out.
   conversion: one parameter, no loop, no arithmetic, calls only of functions named as in NAMES, and a match, an `if` or two fields `x: y.x`.
   order: an `if` that picks the lesser or greater. equality: named same or equal, or two comparisons `a.x == b.x`, or a loop comparing elements.
   copy: a loop that only sets an element from one. swap: three assignments. float test: `x - x == 0.0`, `x != x`, or -x where x < 0.0.
   printing: named put_*, write_* or print_*. ~name: one parameter and a name as in NAMES where none of these holds.
5. What stands together.
   fact: a part of `requires` between top-level ×, parameters replaced by their types in order of appearance, in three functions or more.
   parameters: two or more of equal names and types in three functions or more, and no larger set is; ~parameters: a larger one is, in fewer.
6. Buffers. length: a usize named as in LENGTHS beside a slice or array, in a signature or struct; ~m: the same for one named m.
   parallel: two slices or arrays indexed by one variable that changes. search: a loop with a return, a break or a kept best place, `for _` aside.
   indices: a parameter or field that is a slice or array of usize.
7. Switches. switch: an `if` or `match` of which two branches end in calls with equal arguments, numbers and constants aside.
"""
import argparse
import re
from collections import defaultdict
from pathlib import Path

EMPTY = re.compile(r"(No|None|No\w*|Stop\w*|Refused|Missing|Over|OutOf\w*|Err\w*|Fault\w*|Bad|Absent)$")
ERRORS = re.compile(r"\w*(Error|Fault|Refusal)$")
NUMBER = "(u8|u16|u32|u64|usize|i8|i16|i32|i64)"
KINDS = re.compile(r"(level|stage|kind|mode|entry|minus|good|flag|code|state|sign)$")
NAMES = re.compile(r"(\w+_of|of_\w+|\w*number|from_\w+|to_\w+|is_yes|is_refused|same|least|less\w*|smaller|min|max)$")
DERIVED = {"from", "try_from", "fmt", "eq", "cmp", "partial_cmp", "clone"}
LENGTHS = re.compile(r"(count|length|len|size|n|cells|at|end|used|written|done|points|rows|columns|room|many)$")
WORDS = set("if else match while loop for in let mut return as true false break continue move ref self".split())
TOKEN = re.compile(r'"[^"]*"|\d\w*(?:\.\d\w*)?|[A-Za-z_]\w*(?:!(?=[(\[]))?|::|->|=>|\.\.=?|[<>=!+*/%^|&-]=|&&|\|\||<<|>>|\S')


def blank(text):
    """Comments become spaces, a string a pair of quotes, a character 0: the brackets that remain match, and every place stays."""
    def put(found):
        s = found.group()
        if s[0] == "/":
            return re.sub(r"[^\n]", " ", s)
        return '"' + re.sub(r"[^\n]", " ", s[2:]) + '"' if '"' in s[:2] else "0" + " " * (len(s) - 1)
    return re.sub(r"""//[^\n]*|/\*.*?\*/|b?"(?:\\.|[^"\\])*"|b?'(?:\\.[^'\n]*|[^'\\\n])'""", put, text, flags=re.S)


def depths(text, opens="([{", closes=")]}"):
    """Each place with how many brackets are open after it; the > of an arrow is no bracket."""
    depth = 0
    for j, c in enumerate(text):
        depth += (c in opens) - (c in closes and text[j - 1:j + 1] not in ("->", "=>"))
        yield j, c, depth


def closing(text, i, opens="([{", closes=")]}"):
    """Where the bracket at i closes."""
    return i + next((j for j, _, depth in depths(text[i:], opens, closes) if depth == 0), len(text) - i)


def split(text, mark, opens="([{", closes=")]}"):
    """The parts between top-level marks, each on one line."""
    marks = [-1] + [j for j, c, depth in depths(text, opens, closes) if c == mark and depth == 0] + [len(text)]
    parts = [" ".join(text[a + 1:b].split()) for a, b in zip(marks, marks[1:])]
    return [p for p in parts if p]


def facts(text):
    """The parts of a product; one in brackets of its own may be a product again."""
    if text[:1] == "(" and closing(text, 0) == len(text) - 1:
        return facts(text[1:-1])
    parts = split(text, "×")
    return parts if len(parts) < 2 else [p for part in parts for p in facts(part)]


def named(text):
    """Names and types in a list of parameters or fields."""
    field = r"(?:#\[[^\]]*\]\s*)*(?:pub(?:\([^)]*\))?\s+)?(?:mut\s+)?(\w+)\s*:\s*(.+)$"
    return [m.groups() for m in (re.match(field, part) for part in split(text, ",", "([{<", ")]}>")) if m]


class Function:
    """A function's name, parameters, result, facts required, and body (empty where it has none)."""
    def __init__(self, text, found, line):
        i = found.end()
        i = text.index("(", closing(text, i, "<", ">") if text[i] == "<" else i)
        k = start = closing(text, i) + 1
        self.name, self.line, self.params, self.facts, self.result, self.body = found.group(1), line, named(text[i + 1:k - 1]), [], "", ""
        self.arity = len(split(text[i + 1:k - 1], ",", "([{<", ")]}>"))
        while k < len(text) and text[k] != ";":
            if text[k] != "{":
                k = closing(text, k) + 1 if text[k] in "([" else k + 1
                continue
            clause = re.search(r"\b(requires|ensures|decreases|measure|invariant)(\s+[\w-]+)?\s*$", text[start:k])
            arrow = re.search(r"->\s*(.+?)\s*(\b(requires|ensures|decreases|where)\b|$)", text[start:k], re.S)
            self.result, end = self.result or (arrow.group(1) if arrow else ""), closing(text, k)
            if not clause:
                self.body, self.start = text[k + 1:end], k + 1
                break
            self.facts += facts(" ".join(text[k + 1:end].split())) if clause.group(1) == "requires" else []
            k = start = end + 1
        self.label = f"{self.name}({', '.join(n + ': ' + t for n, t in self.params)})" + (f" -> {self.result}" if self.result else "")
        self.flat, self.where, self.form = " ".join(self.body.split()), line(found.start()), self.normal(False)

    def normal(self, keep_calls):
        """The body with placeholders, by rule 2."""
        tokens, out, names, calls = TOKEN.findall(self.body) + [""], [], {}, {}
        for t, after in zip(tokens, tokens[1:]):
            if t == "::" or after == "::":
                continue
            if t in WORDS or t[-1] == "!" or not re.match(r'[\w"]', t) or (out and out[-1] == "." and t[0].isalpha()):
                out.append(t)
            elif t[0] in '0123456789"' or re.fullmatch(r"[A-Z][A-Z0-9_]*", t):
                out.append("N")
            elif t[0].isupper() or re.fullmatch(NUMBER + "|f32|f64|bool", t):
                out.append("T")
            elif after == "(":
                out.append(re.sub(f"_({NUMBER}|f64)$", "", t) if keep_calls else calls.setdefault(t, f"f{len(calls)}"))
            else:
                out.append(names.setdefault(t, f"p{len(names)}"))
        form = re.sub(r", (?=[)}\]])", "", re.sub(r"(?<=[\[(,=] )- N", "N", " ".join(out)))
        return re.sub(r"\{ return ([^{};]+) ; \} ([^{};]+)$", r"{ \1 } else { \2 }", form)


def types(text, line):
    """Points 1 and 6: enums and structs."""
    for m in re.finditer(r"\b(enum|struct)\s+(\w+)[^{;(]*\{", text):
        where, name, block = line(m.start()), m.group(2), text[m.end():closing(text, m.end() - 1)]
        if m.group(1) == "struct":
            fields = named(block)
            if ("number", "u32") in fields and len(fields) > 1:
                yield 1, "number field", where, f"{name}: " + ", ".join(f"{n}: {t}" for n, t in fields)
            yield from shared(where, name, fields, "flag")
            continue
        parts = [re.sub(r"#\[[^\]]*\]\s*", "", p) for p in split(block, ",")]
        full = [p for p in parts if not re.fullmatch(r"\w+", p)]
        empty = len(full) < len(parts) or any(EMPTY.match(re.match(r"\w+", p)[0]) or re.search(r"\bnumber: u32|\bat: usize", p) for p in full)
        like = 2 <= len(parts) <= 3 and full and empty and not ERRORS.match(name)
        yield 1, "enum" if like else "~enum", where, f"{name}: " + " | ".join(parts)
        for p in full:
            yield from shared(where, name, named(p[p.find("{") + 1:-1]), "flag")


def shared(where, name, fields, flag):
    """What is looked for in fields and in parameters alike."""
    buffers = ", ".join(b for b, t in fields if re.match(r"&?\s*('\w+ )?(mut )?\[", t))
    for n, t in fields:
        if KINDS.match(n) and re.fullmatch(NUMBER, t):
            yield 1, "kind as number", where, f"{name}: {n}: {t}"
        if t == "bool" and len(fields) > 1:
            yield 1, flag, where, f"{name}: {n}: bool beside {', '.join(o for o, _ in fields if o != n)}"
        if re.search(r"\[\s*usize\b", t):
            yield 6, "indices", where, f"{name}: {n}: {t}"
        if t == "usize" and buffers and (LENGTHS.match(n) or n == "m"):
            yield 6, "length" if n != "m" else "~m", where, f"{name}: {n} beside {buffers}"


def signature(f):
    """Points 1 and 6: parameters and results."""
    if f.result == "u32" or re.fullmatch(NUMBER, f.result) and re.match(r"(?!put|write)\w*(number|questions?|fault|check)(_of)?$", f.name):
        yield 1, "number returned", f.where, f.label
    if re.match(r"\(.*\bbool\b", f.result):
        yield 1, "flag", f.where, f.label
    for m in re.finditer(r"\bnumber [!=]= 0\b", f.body):
        yield 1, "number asked", f.line(f.start + m.start()), f"{f.name}: {m.group()}"
    yield from shared(f.where, f.name, f.params, "~flag parameter")


def loops(f):
    """Point 3, and what points 4 and 6 say of loops."""
    for m in re.finditer(r"\b(while|loop|for)\b([^{}]*)\{", f.body):
        word, head, block = m.group(1), " ".join(m.group(2).split()), f.body[m.end():closing(f.body, m.end() - 1)]
        where, text, steps = f.line(f.start + m.start()), f"{f.name}: {word} {head}".strip(), re.findall(r"\b(\w+) [+-]= 1;", block)
        if word == "for":
            i = (re.match(r"(\w+) in .*\.\.", head) or "__")[1]
            uses, bases = len(re.findall(rf"\b{i}\b", block)), re.findall(rf"(\w+)\[{i}\]", block)
            one = uses == len(bases) and len(set(bases)) == 1
            yield 3, "range for one slice" if one else "~for", where, text
        else:
            by_hand = [s for s in steps if word == "loop" or re.search(rf"\b{s}\b", head)]
            yield 3, "index by hand" if by_hand else "~loop", where, text
        rest = " ".join(re.sub(r"\b\w+ [+-]= 1;", "", block).split())
        if re.fullmatch(r"\w+\[[^;]*\] = \w+\[[^;=]*\]( as \w+)?;", rest):
            yield 4, "copy", where, f"{f.name}: {rest}"
        if re.search(r"\w+\[[^;{]*\] [!=]= \w+\[[^;{]*\] \{", rest):
            yield 4, "equality", where, f"{f.name}: {rest}"
        kept = any(re.search(rf"\{{\s*\w+ = {s};\s*\}}", block) for s in steps)
        if not head.startswith("_ ") and (kept or re.search(r"\b(return|break)\b", block)):
            yield 6, "search", where, text
    for v in dict.fromkeys(a or b for a, b in re.findall(r"\blet mut (\w+)|\bfor (\w+) in", f.body)):
        indexed = [b for b, index in re.findall(r"\b(\w+)\[([^\[\]]+)\]", f.body) if re.search(rf"\b{v}\b", index) and ".." not in index]
        if len(set(indexed)) > 1:
            yield 6, "parallel", f.where, f"{f.name}: {', '.join(dict.fromkeys(indexed))} by {v}"


def by_hand(f):
    """Point 4."""
    one, body, found = f.arity == 1, f.flat, []
    calls = [c for c in re.findall(r"\b([a-z_]\w*)\(", body) if not NAMES.match(c) and c not in WORDS]
    fields = re.findall(r"\w+: (\w+\.\w+|\w+\(\w+\.\w+\))", body)
    if one and not calls and not re.search(r" [+*/%-] |\b(while|loop|for)\b", body) and (re.search(r"\b(match|if)\b", body) or len(fields) > 1):
        found.append("conversion")
    if re.match(r"(same|equal)(_|$)", f.name) or len(re.findall(r"\b\w+\.(\w+) [!=]= \w+\.\1\b", body)) > 1:
        found.append("equality")
    found += [kind for kind, text, rule in (
        ("order", f.form, r"if p0 [<>]=? p1 \{ p[01] \} else \{ p[01] \}$"),
        ("swap", body, r".*let (\w+) = (\w+)\[([^;]+)\]; \2\[\3\] = \2\[([^;]+)\]; \2\[\4\] = \1;"),
        ("float test", body, r".*?(\b(\w+) - \2 == 0\.0|(?<![\w.])([\w.]+) [!=]= \3(?![\w.(\[])|if (\w+) < 0\.0 \{ -\4 \})"),
        ("printing", f.name, r"(put|write|print)_"),
    ) if re.match(rule, text)]
    for kind in found or (["~name"] if one and NAMES.match(f.name) else []):
        if f.name not in DERIVED:
            yield 4, kind, f.where, f.label


def switch(f):
    """Point 7."""
    ends = defaultdict(dict)
    for m in re.finditer(r"(?:[{}]|=>|\breturn)\s*((?:\w+::)*[a-z_]\w*)\(", f.body):
        end = closing(f.body, m.end() - 1)
        args = " ".join(f.body[m.end():end].split()).rstrip(",")
        if re.match(r"\s*[},;]", f.body[end + 1:] + "}") and m.group(1) not in WORDS:
            ends[re.sub(r"\b\d[\w.]*|\b[A-Z][A-Z0-9_]+\b", "N", args)][m.group(1), args] = f.line(f.start + m.start(1))
    for (name, args), where in [call for calls in ends.values() if len(calls) > 1 for call in calls.items()]:
        if re.search(r"\b(if|match)\b", f.body):
            yield 7, "switch", where, f"{f.name}: {name}({args})", f.where


def twins(functions, constants):
    """Point 2."""
    groups = defaultdict(list)
    for f in functions:
        size, calls = len(f.form.split()), re.fullmatch(r"([fp]\d+|T|[(),]| )*", f.form)
        small = size < 5 or calls and size < 10 or re.fullmatch(r"(T|f0) [({] (p\d+ (: p\d+ )?(, )?)*[)}]", f.form)
        if small and f.body:
            yield 2, "~too small", f.where, f.label
        elif f.body:
            groups[f.form].append(f)
    for number, group in enumerate(g for g in groups.values() if len(g) > 1):
        alike = "same" if len({f.normal(True) for f in group}) == 1 else "calls"
        for f in group:
            yield 2, "twins", f.where, f"{f.label} ({alike})", number + 1
    for key, members in constants.items():
        for where, name in members if len(members) > 1 else []:
            yield 2, "constant", where, name, key


def together(functions):
    """Point 5."""
    holders, own = defaultdict(dict), [frozenset(f.params) for f in functions]
    for f in functions:
        for part in f.facts:
            types, seen = dict(f.params), {}
            told = lambda m: seen.setdefault(m[0], f"<{len(seen)} {types[m[0]]}>") if m[0] in types else m[0]
            holders[re.sub(r"(?<![\w.])[A-Za-z_]\w*", told, part)][f] = part
    for number, parts in enumerate(p for p in holders.values() if len(p) > 2):
        for f, part in parts.items():
            yield 5, "fact", f.where, f"{f.name}: {part}", number + 1
    common = sorted((g for g in {a & b for i, a in enumerate(own) for b in own[:i]} if len(g) > 1), key=sorted)
    sets = {g: [f for f, s in zip(functions, own) if g <= s] for g in common}
    sets = {g: members for g, members in sets.items() if len(members) > 2}
    for number, (group, members) in enumerate(sets.items()):
        text = ", ".join(f"{n}: {t}" for n, t in members[0].params if (n, t) in group)
        for f in members:
            yield 5, "~parameters" if any(group < g for g in sets) else "parameters", f.where, f"{f.name}: {text}", number + 1


def places(root):
    """Every place: point, kind, where, text, and the group of those that are in one."""
    functions, constants = [], defaultdict(list)
    for path in sorted(Path(root).glob("crates/*/src/**/*.rt")):
        raw, file = path.read_text(encoding="utf-8"), path.relative_to(Path(root) / "crates").as_posix()
        text, line = blank(raw), lambda at, raw=raw, file=file: f"{file}:{raw.count(chr(10), 0, at) + 1}"
        functions += [Function(text, m, line) for m in re.finditer(r"\bfn\s+(\w+)", text)]
        yield from types(text, line)
        for m in re.finditer(r"\bconst\s+([A-Z]\w*)\s*:\s*([^=;]+?)\s*=\s*([^;]+);", text):
            value = re.sub(r"(?<=\w)_(?=\w)", "", raw[m.start(3):m.end(3)])
            value = int(value, 0) if re.fullmatch(r"0x[\da-fA-F]+|\d+", value) else value
            constants[f"{m.group(2)} {value}"].append((line(m.start()), m.group(1)))
    for f in functions:
        yield from (*signature(f), *loops(f), *by_hand(f), *switch(f))
    yield from (*twins(functions, constants), *together(functions))


def main():
    parser = argparse.ArgumentParser(description=__doc__.splitlines()[0])
    parser.add_argument("root", nargs="?", default=".")
    parser.add_argument("--point", type=int, action="append", choices=range(1, 8))
    parser.add_argument("--table", action="store_true")
    told = parser.parse_args()
    rows = [(*place, None)[:5] for place in places(told.root)]
    for point in told.point or range(1, 8):
        counts = {}
        for kind in sorted({r[1] for r in rows if r[0] == point}, key=lambda k: (k[0] == "~", k)):
            mine = [r for r in rows if r[:2] == (point, kind)]
            groups, counts[kind] = len({r[4] for r in mine} - {None}), len(mine)
            for _, _, where, text, group in [] if told.table else mine:
                print(f"{where}: {kind}{f' {group}' if group else ''}: {text}")
            print(f"point {point} | {kind} | {len(mine)}" + (f" in {groups} groups" if groups else ""))
        print(f"point {point} | total | {sum(n for kind, n in counts.items() if kind[0] != '~')}")


if __name__ == "__main__":
    main()
