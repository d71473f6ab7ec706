#!/usr/bin/env python3
"""Respells this repository's own definitions and lemmas: words in snake case, types and facts in camel case, a prime as an apostrophe.

usage: python3 tools/respell.py [--list]      at the top of the repository; --list prints the pairs and changes nothing

It was run once, after the kit's port.py. A dash stays between the names of two definitions, as in `fits-append`; elsewhere in a name it becomes `_`. Where two
names would fall together, the definition keeps the name and the lemma gets `_lem`. Names of src/, exported names, strings, inputs and outputs, names of the
library and names that goals have stay as they are.
"""

import os
import re
import shutil
import sys

WORD = re.compile(r"[^\s(){}\[\].,;:«»\"`|@]+")
DEF = re.compile(r"^(\s*)((?:(?:abbrev|unfoldable|pub|data|record|module) )*)([^\s(){}\[\].,;:«»\"`|@]+)((?: +[({][^:]*:[^)}]*[)}])*) :(?: (.*))?$")
WORDS = {"let", "where", "in", "λ", "use", "elim", "open", "module", "_"}
GOAL = re.compile(r"^(tie\.|goal\.|statement\b)")
KIT = os.path.join(os.path.dirname(os.path.dirname(os.path.realpath(shutil.which("rt") or "rt"))), "rattle")


def files(ends, tops=("crates",)):
    for top in tops:
        if os.path.isfile(top) and top.endswith(ends):
            yield top
        for folder, dirs, names in os.walk(top):
            dirs[:] = sorted(d for d in dirs if d not in ("out", "target", "changes"))
            for name in sorted(names):
                if name.endswith(ends):
                    yield os.path.join(folder, name)


def read(path):
    with open(path, encoding="utf-8", newline="") as f:
        return f.read()


def definitions():
    """Of each name that an .antt file defines: its keywords, the text of its type, and the file. A name with a goal's type counts in no file."""
    found, goals = {}, {}
    for path in files(".antt"):
        for line in read(path).split("\n"):
            m = DEF.match(line)
            if m and m.group(3) not in WORDS:
                kind, name, text = m.group(2).strip(), m.group(3), m.group(5) or ""
                if GOAL.match(text):
                    goals.setdefault(path, set()).add(name)
                else:
                    found.setdefault(name, []).append((kind, text, path))
    return found, goals


def library():
    """The names that the library passes on in its Prelude, and all that its files define."""
    first, names = set(), set()
    for p in ("core", "std"):
        for part in re.findall(r"\{([^}]*)\}", read(os.path.join(KIT, p, "specs", "Prelude.antt"))):
            first |= {n.strip() for n in part.split(",")}
    for d in ("logic", "core", "std", "std_alloc", "io"):
        for folder, dirs, fs in os.walk(os.path.join(KIT, d)):
            for f in fs:
                if f.endswith(".antt"):
                    names |= {m.group(3) for m in map(DEF.match, read(os.path.join(folder, f)).split("\n")) if m}
    return {n for n in first if "-" not in n}, names | first


def snake(word):
    return word if word[:1].isupper() else re.sub(r"(?<=[a-z0-9])([A-Z])", lambda m: "_" + m.group(1).lower(), word)


def is_type(kind, text):
    return kind.endswith(("record", "data")) or bool(re.search(r"(^|→ )(Type|SProp|Item|Contract)\b[^→]*$", text.split(" where")[0].strip()))


def spell(name, kinds, nouns):
    name = name.replace("′", "'")
    if any(is_type(kind, text) for kind, text, _ in kinds):
        return "".join(p[:1].upper() + p[1:] for p in re.split("[-_]", name))
    parts = name.split("-")
    out = parts[0] and snake(parts[0])
    for before, part in zip(parts, parts[1:]):
        joins = not name.endswith("-spec") and (before in nouns and part in nouns or before[:1].isupper() or not before.isidentifier())
        out += ("-" if joins else "_") + snake(part)
    return out


def table():
    found, goals = definitions()
    first, std = library()
    nouns = first | {n for n, kinds in found.items() if "-" not in n and any(k.startswith(("abbrev", "unfoldable")) and "/specs/" in p for k, _, p in kinds)}
    pairs, groups = {}, {}
    for name, kinds in found.items():
        new = name if name in std else spell(name, kinds, nouns)
        groups.setdefault(new, []).append(name)
    for new, names in groups.items():
        names.sort(key=lambda n: (n not in nouns, not re.search(r"[a-z][A-Z]", n) or "-" in n, n != new, n))
        for i, name in enumerate(names):
            to = new + ("", "_lem", "_lem'")[i]
            if to != name:
                pairs[name] = to
    return found, goals, std, pairs


def words(text, pairs, keep=()):
    return WORD.sub(lambda m: m.group(0) if m.group(0) in keep else pairs.get(m.group(0), m.group(0)), text)


def main():
    found, goals, std, pairs = table()
    if "--list" in sys.argv:
        for a, b in sorted(pairs.items()):
            print(a, b)
        return
    ghost = {a: b for a, b in pairs.items() if "-" not in a and re.search("[a-z][A-Z]|′", a)}
    for path in files((".antt", ".rt", ".edit", ".md"), ("crates", "docs", "README.md")):
        text = old = read(path)
        if path.endswith(".antt"):
            text = words(text, pairs, goals.get(path, ()))
        elif path.endswith(".rt"):
            text = "\n".join(words(l, pairs if l.lstrip().startswith("ghost use") else ghost) for l in text.split("\n"))
        elif path.endswith(".edit"):
            text = "\n".join(words(l, pairs if "file: specs" in text or "file: proofs" in text else ghost) for l in text.split("\n"))
        else:
            text = re.sub(r"`[^`\n]*`", lambda m: words(m.group(0), pairs), text)
        if text != old:
            with open(path, "w", encoding="utf-8", newline="") as f:
                f.write(text)


if __name__ == "__main__":
    main()
