#!/usr/bin/env python3
"""Counts the places that docs/DESIGN-PASS.md speaks of in crates/*/src, point by point: `python3 tools/design_count.py [-v]`, at the top.
It finds candidates by their shape; the page says of each what became of it. Assumes the layout of `rt fmt`."""
import collections
import glob
import re
import sys

def sources():
    for path in sorted(glob.glob("crates/*/src/**/*.rt", recursive=True)):
        yield path.removeprefix("crates/").replace("/src", ""), open(path, encoding="utf-8").read()


def functions(text):
    """Yields name, parameters, contract and body of each function."""
    for part in re.split(r"(?m)^(?= *(?:pub )?(?:extern \"C\" )?fn \w)", text)[1:]:
        name = re.search(r"fn (\w+)", part)[1]
        indent = re.match(r" *", part)[0]
        end = re.search(rf"(?m)^{indent}\}}$", part)
        part = part[: end.end()] if end else part
        body = re.search(rf"(?m)^{indent}\{{\n(.*)^{indent}\}}", part, re.S) or re.search(r"\{\n(.*)\}", part, re.S)
        head = part[: body.start()] if body else part
        yield name, head, body[1] if body else ""


def parameters(head):
    inside = head[head.index("(") + 1 :]
    inside = re.split(r"\)\s*(?:->|\n|requires|ensures|$)", inside)[0]
    return [it.split(":")[0].strip().removeprefix("mut ") for it in re.split(r",\s*(?![^\[<]*[\]>])", inside) if ":" in it]


def code(text):
    return "\n".join(line for line in text.split("\n") if not line.strip().startswith("//"))


def own_options(path, text):
    for m in re.finditer(r"enum (\w+) \{(.*?)\n\}", code(text), re.S):
        if re.search(r"^    (Refused|Missing|Nothing|Failed|Proceed)\b", m[2], re.M):
            yield f"{path}: enum {m[1]}"


def flags(path, text):
    for m in re.finditer(r"struct (\w+)(?:<.*?>)? \{(.*?)\n\}", code(text), re.S):
        if re.search(r": bool,", m[2]):
            yield f"{path}: a flag in {m[1]}"
    for m in re.finditer(r"^ *//(.*(?:\n *//.*)*)\n(?: *#\[.*\n)* *(?:pub )?fn (\w+)\((?:.*\n)*?.*?-> (?:u8|u64|usize)\b", text, re.M):
        if re.search(r"(where|for) (there is none|the name is none|it is none|none)|as broken", m[1]):
            yield f"{path}: a number for nothing from {m[2]}"


def number_kinds(path, text):
    names = re.findall(r"^ *(?:pub )?const ([A-Z_]+): u(?:8|64) = (\d+);", code(text), re.M)
    small = [n for n, v in names if int(v) < 8]
    if len(small) >= 3:
        yield f"{path}: constants for kinds: {' '.join(small)}"
    for name, head, body in functions(code(text)):
        if len(re.findall(r"^ +b?'?\d+ => ", body, re.M)) >= 2:
            yield f"{path}: a match on numbers in {name}"
        if re.search(r"\bkind: u(8|64|size)\b", head):
            yield f"{path}: a kind as a number in {name}"


def twins():
    seen = collections.defaultdict(list)
    for path, text in sources():
        for name, _, body in functions(code(text)):
            shape = re.sub(r"\b[a-z_][a-z_0-9]*\b|\b[A-Z]\w*\b|\b\d+\b|b?\".*?\"|b?'.*?'", "x", body)
            shape = re.sub(r"\s+", " ", shape)
            if body.count("\n") >= 3:
                seen[shape].append(f"{path}: {name}")
    return [" = ".join(it) for it in seen.values() if len(it) > 1]


def loops(path, text):
    for name, _, body in functions(code(text)):
        for m in re.finditer(r"^( *)while (.*?) \{\n(.*?)^\1\}", body, re.M | re.S):
            if any(re.search(rf"\b{v} (\+|-)= ", m[3]) for v in re.findall(r"[a-z_]+", m[2])):
                yield f"{path}: {name}: while {m[2]}"


def conversions(path, text):
    for name, head, body in functions(code(text)):
        if re.search(r"_number$|^cause_of$|^wide$", name):
            yield f"{path}: conversion {name}"
        if re.search(r"\[i\] != \w+\[i\]", body):
            yield f"{path}: equality of slices in {name}"
    for m in re.finditer(r"std::num::wrapping_\w+", text):
        yield f"{path}: {m[0]}"


def facts():
    said = collections.defaultdict(list)
    for path, text in sources():
        for name, head, _ in functions(code(text)):
            for clause in re.findall(r"requires(?: \w+)? \{(.*?)\}\n", head, re.S):
                for fact in re.split(r" × ", " ".join(clause.split())):
                    said[fact.strip().strip("()")].append(f"{path}: {name}")
    return [f"{k} ({len(v)})" for k, v in said.items() if len(v) >= 3]


def together():
    groups = collections.Counter()
    for _, text in sources():
        for _, head, _ in functions(code(text)):
            names = parameters(head)
            for size in (3, 4, 5):
                for i in range(len(names) - size + 1):
                    groups[tuple(names[i : i + size])] += 1
    wide = {k: v for k, v in groups.items() if v >= 3}
    return [f"{', '.join(k)} ({v})" for k, v in wide.items() if not any(set(k) < set(o) and v <= w for o, w in wide.items())]


def places(path, text):
    for name, head, body in functions(code(text)):
        names = parameters(head)
        if "out" in names and ("at" in names or "to" in names):
            yield f"{path}: {name}: an area with a place beside it"
        arrays = re.findall(r"let mut (\w+) = \[", body)
        if len(arrays) > 1 and len(set(re.findall(r"= \[0\w*; (.*?)\];", body))) <= 2 and "offsets" in arrays:
            yield f"{path}: {name}: parallel arrays {' '.join(arrays)}"


def main():
    found = collections.OrderedDict()
    each = lambda f: [it for path, text in sources() for it in f(path, text)]
    found["1 own enums of Option's or Result's shape"] = each(own_options)
    found["1 flags and numbers for nothing beside a value"] = each(flags)
    found["1 numbers for kinds"] = each(number_kinds)
    found["2 functions of one shape"] = twins()
    found["3 loops that count by hand"] = each(loops)
    found["4 equality and conversion by hand"] = each(conversions)
    found["5 facts in three or more contracts"] = facts()
    found["5 parameters that travel together"] = together()
    found["6 areas with a place, parallel arrays"] = each(places)
    for title, items in found.items():
        print(f"{title}: {len(items)}")
        if "-v" in sys.argv:
            print("".join(f"    {it}\n" for it in items), end="")


main()
