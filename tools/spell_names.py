#!/usr/bin/env python3
"""Brings the names of this repository's own definitions and lemmas to the spelling of the library: words in snake case, a dash only between two
names of definitions. Names that begin with a capital (types, facts, modules), goals that the prover names and names of src/ keep theirs.

usage: tools/spell_names.py [--show] [FOLDER]     in the repository, or on FOLDER: rewrites crates/, docs/ and README.md in place.
With --show it writes nothing and prints each name, old and new, and what would fall together.
"""
import pathlib
import re
import sys

WORD = re.compile(r"[^\s(){}.;,@\"«»`]+")
DECLARED = re.compile(r"^\s*(?:(?:abbrev|unfoldable|pub|field|mutual|where|infix\S*)\s+)*([^\s:(){}.;,]+) : ")
ROW = re.compile(r"^\s*(?:(?:abbrev|unfoldable|pub)\s+)*([^\s:(){}.;,]+) : (?:\S*\.)?(?:tie\.|goal\.)")
# names of the library that a lemma's name joins by a dash
LIBRARY = set("refl sym append length take drop set get_or replicate suc zero add sub mul div mod pow lt le eq and or xor cond eqb "
              "reverse map sum min max".split())


APART = {"secondFits": "second_state_fits"}


def snake(word):
    return word if word[:1].isupper() else re.sub(r"(?<=[a-z0-9])([A-Z])", lambda m: "_" + m.group(1).lower(), word)


def files(root, *patterns):
    for p in patterns:
        for f in sorted(root.glob(p)):
            if f.is_file() and "out" not in f.relative_to(root).parts:
                yield f


def declared(root):
    """The names that specs/ and proofs/ declare, and those that are goals of a function's proof."""
    own, plain, goals = set(), set(), set()
    for f in files(root, "crates/*/specs/**/*.antt", "crates/*/proofs/**/*.antt"):
        for line in f.read_text().splitlines():
            line = line.split("--")[0] if line.lstrip().startswith("--") else line
            m = DECLARED.match(line)
            if not m:
                continue
            name = m.group(1)
            if ROW.match(line) or name.endswith("-spec"):
                goals.add(name)
                continue
            if name[:1].isupper() or not re.search(r"\w", name) or "◌" in name:
                continue
            own.add(name)
            if "-" not in name and "specs" in f.parts:
                plain.add(snake(name))
    return own - goals, plain


def spelled(name, known):
    parts = [snake(p) for p in name.split("-")]
    made = parts[0]
    for p in parts[1:]:
        made += ("-" if made in known and p in known else "_") + p
    return made


def table(root):
    own, plain = declared(root)
    known = plain | LIBRARY
    rows = {n: spelled(n, known) for n in own}
    rows = {n: m for n, m in rows.items() if n != m and not n.startswith("+")}
    present = set()
    for f in files(root, "crates/**/*.antt", "crates/**/*.rt"):
        present |= set(WORD.findall(f.read_text()))
    seen, fallen = {}, []
    for n, m in sorted(rows.items(), key=lambda r: ("-" in r[0], r)):
        if m in present or m in seen:
            fallen.append((n, m, "stands already" if m in present else "also of " + seen[m]))
        seen.setdefault(m, n)
    return rows, fallen


def main(words):
    show = "--show" in words
    root = pathlib.Path(next((w for w in words if w != "--show"), "."))
    rows, fallen = table(root)
    # Names that would fall together: a name with a dash keeps it; a lemma that has a definition's new name already gets `_lem`, as the
    # library has it; and one definition is named apart from the clause that it stands in.
    own, _ = declared(root)
    for n, m, why in fallen:
        kept = "-".join(snake(p) for p in n.split("-"))
        if "-" not in n and n not in APART and m in own and m not in rows:
            rows[m] = m + "_lem"
        rows[n] = APART.get(n, kept)
        if show:
            print("together:", n, m, why, "->", rows[n], rows.get(m, ""))
    rows = {n: m for n, m in rows.items() if n != m}
    if show:
        for n, m in sorted(rows.items()):
            print(n, m)
        return 0
    for f in files(root, "crates/**/*.antt", "crates/**/*.rt", "crates/**/*.edit", "docs/**/*.md", "README.md"):
        old = f.read_text()
        new = WORD.sub(lambda m: rows.get(m.group(0), m.group(0)), old)
        if new != old:
            f.write_text(new)
    return 0


if __name__ == "__main__":
    raise SystemExit(main(sys.argv[1:]))
