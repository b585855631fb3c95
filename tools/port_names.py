#!/usr/bin/env python3
"""Brings the names of the repository's definitions and lemmas to today's spelling: words in snake case; a dash
in a lemma's name only between two names, a plain word is added with an underscore.

usage: python3 tools/port_names.py [--list]      at the top of the repository; --list prints the pairs and writes nothing

It reads the names that specs/ declares, and writes each where it stands as a whole word in .antt files, in the
ghost text of .rt files, in edits and between backticks in pages. Functions of src/, types and modules keep their
names. It stops where two names would become one.
"""

import glob
import re
import sys

WORD = re.compile(r"[^\s(){};,.\[\]\"`@|]+")
DECLARED = re.compile(r"^(\s*)((?:(?:abbrev|unfoldable|inline|pub) )*)([^\s(){};,.:\[\]]+(?: [^\s(){};,.:\[\]]+)*) :(?: |$)")
TYPE = re.compile(r"^\s*(?:pub )?(record|data) (?:pub )?([^\s(){};,.:\[\]]+)")
# Words of std that lemmas of the repository join to another name.
STD = set("length append take drop map set get_or reverse sum filter zip suc replicate list set_at ltb leb eqb not".split())
# Not a name: a tactic, a word of antt, or bound by the logic.
RESERVED = set("search omega grind simp rw cc let in where record data open use module absurd refl tt".split())


def snake(part):
    return re.sub(r"(?<=[a-z0-9'])([A-Z])", lambda m: "_" + m.group(1), part).lower() if re.match(r"[a-z]", part) else part


def texts(pattern):
    for path in sorted(glob.glob(pattern, recursive=True)):
        if "/out/" not in path:
            with open(path, encoding="utf-8") as it:
                yield path, it.read()


def declared():
    """Returns the names of specs/, and those of them that are definitions."""
    names, definitions = set(), set()
    for _, text in texts("crates/*/specs/**/*.antt"):
        for line in text.split("\n"):
            line = line.split("--")[0] if line.lstrip().startswith("--") else line
            found = TYPE.match(line)
            if found:
                definitions.add(found[2])
            found = DECLARED.match(line)
            if not found or "(" in found[3]:
                continue
            for name in found[3].split(" "):
                if name in RESERVED or name in ("pub", "abbrev", "unfoldable"):
                    continue
                names.add(name)
                if "abbrev" in found[2] or "unfoldable" in found[2]:
                    definitions.add(name)
    return names, definitions


def functions():
    found = set()
    for _, text in texts("crates/*/src/**/*.rt"):
        found.update(re.findall(r"\bfn (\w+)", text))
    return found


def renamed(name, known):
    parts = [snake(part) for part in name.split("-")]
    out = parts[0]
    for i in range(1, len(parts)):
        left, right = parts[i - 1], parts[i]
        joined = left in known and right in known
        out += ("-" if joined or not re.match(r"\w", right) else "_") + right
    return out


def table():
    names, definitions = declared()
    known = {snake(it) for it in definitions} | STD | {it for it in definitions if it[:1].isupper()}
    # A camel case word that is bound within a file, as a parameter, is spelled the same way.
    bound = set()
    for _, text in texts("crates/**/*.antt"):
        bound.update(it for it in WORD.findall(text) if re.fullmatch(r"[a-z][a-z0-9]*(?:[A-Z][a-z0-9']*)+(?:-[A-Za-z0-9_'-]+)?", it))
    places = {}
    for path, text in list(texts("crates/**/*.antt")) + list(texts("crates/**/*.rt")):
        for word in set(WORD.findall(text)):
            places.setdefault(word, set()).add(path)
    turned = {}
    for name in sorted(names | bound):
        if re.match(r"[A-Za-z]", name) and "◌" not in name:
            turned[name] = renamed(name, known)
    # Names that would become one: a lemma gives way to the definition that it is of; words that no file has
    # together may be spelled alike.
    by_new = {}
    for name, to in turned.items():
        by_new.setdefault(to, []).append(name)
    clashes = []
    for to, group in by_new.items():
        lemmas = [it for it in group if it not in definitions]
        if len(group) > 1 and len(lemmas) < len(group):
            for it in lemmas:
                if it in names and places.get(it, set()) & set().union(*(places.get(g, set()) for g in group if g in definitions)):
                    turned[it] = to + "_lem"
        together = [it for it in group if turned[it] == to]
        for i, it in enumerate(together):
            for other in together[i + 1:]:
                both = places.get(it, set()) & places.get(other, set())
                if both:
                    clashes.append(f"{it} and {other} would both be {to} in {sorted(both)[0]}")
    for name, to in turned.items():
        if to.endswith("_lem") and sum(1 for it in turned.values() if it == to) > 1:
            clashes.append(f"{to} would stand for two names")
    turned = {name: to for name, to in turned.items() if to != name}
    return turned, clashes


def write(turned, line):
    return WORD.sub(lambda m: turned.get(m[0], m[0]), line)


def main():
    turned, clashes = table()
    if "--list" in sys.argv:
        for name, to in turned.items():
            print(name, to)
    for it in clashes:
        print("together: " + it, file=sys.stderr)
    if clashes:
        raise SystemExit(1)
    if "--list" in sys.argv:
        return
    changed = 0
    # A word of the source, which has no capital and no dash, is not turned.
    ghost = {name: to for name, to in turned.items() if re.search(r"[A-Z-]", name)}
    for pattern in ("crates/**/*.antt", "crates/**/*.rt", "crates/*/must-fail/*.edit", "docs/**/*.md", "README.md"):
        for path, text in texts(pattern):
            if path.endswith(".md"):
                new = re.sub(r"`[^`\n]*`", lambda m: write(ghost, m[0]), text)
            elif path.endswith(".rt"):
                new = "\n".join(it if it.lstrip().startswith("//") else write(ghost, it) for it in text.split("\n"))
            else:
                new = write(turned, text)
            if new != text:
                with open(path, "w", encoding="utf-8") as it:
                    it.write(new)
                changed += 1
    print(f"{len(turned)} names in {changed} files")


if __name__ == "__main__":
    main()
