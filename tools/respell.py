#!/usr/bin/env python3
"""Brings the repository's own definitions and lemmas to one spelling: words in snake case, types and modules in camel case.

usage: python3 tools/respell.py [ROOT]      once, after port.py has run at ROOT (the current folder if not given)

port.py respells only the names that one of the kit's libraries had too. This turns the others, wherever they are named: in .rt, .antt
and .edit files, and between backquotes in pages. A dash stays only where it joins a definition's name or a type's to a word.
Functions of src/, types, files, strings and the names of files keep theirs. It stops, and writes nothing, where two names would become one.
"""

import os
import re
import sys

TOKEN = re.compile(r"[^\s(){}\[\].,;:«»`|\"]+")
DECLARED = re.compile(
    r"^[ \t]*(?:(?:abbrev|unfoldable|pub|data|record|ruleset)[ \t]+)*([^\W\d][^\s(){}\[\].,;:=«»`|]*)[ \t]*(?:[({][^)}]*[)}][ \t]*)*:(?![:=])",
    re.M,
)
ALIAS = re.compile(r"\bas ([a-z][\w-]*)\s*$", re.M)


def files(root, *endings):
    for folder, dirs, names in os.walk(root):
        dirs[:] = sorted(d for d in dirs if d not in ("out", ".git", "target"))
        for name in sorted(names):
            if name.endswith(endings):
                yield os.path.join(folder, name)


def read(path):
    with open(path, encoding="utf-8") as f:
        return f.read()


def declared(root):
    """The names that specs/ and the shared files of proofs/ declare, and what modules are called there."""
    found = set()
    for path in files(os.path.join(root, "crates"), ".antt"):
        parts = os.path.relpath(path, os.path.join(root, "crates")).split(os.sep)
        shared = parts[1] == "specs" or len(parts) == 3
        text = "\n".join(l for l in read(path).splitlines() if not l.lstrip().startswith("--"))
        if shared:
            found.update(m.group(1) for m in DECLARED.finditer(text))
        found.update(m.group(1) for m in ALIAS.finditer(text))
    return found


def snake(word):
    return re.sub(r"(?<=[a-z0-9])([A-Z])", lambda m: "_" + m.group(1).lower(), word)


def spelled(name):
    """The name in the spelling of today: parts that begin with a small letter in snake case, dashes between plain words as underscores."""
    parts = name.split("-")
    if not all(parts):
        return name
    made = parts[0] if parts[0][0].isupper() else snake(parts[0])
    joins = parts[0][0].isupper() or re.search(r"[a-z0-9][A-Z]", parts[0])
    for part in parts[1:]:
        made += ("-" if joins or part[0].isupper() else "_") + (part if part[0].isupper() else snake(part))
        joins = part[0].isupper()
    return made


def theirs(text, crates):
    """The names that a file takes from a library that is not of this repository, which may be spelled as one of ours."""
    found = set()
    for m in re.finditer(r"^(?:ghost )?use ([\w.]+)\.\{([^}]*)\}", text, re.M):
        path = m.group(1).split(".")
        if path[0] != "Rattle" or path[1] not in crates:
            found.update(TOKEN.findall(m.group(2)))
    return found


def turned(text, names):
    return TOKEN.sub(lambda m: names.get(m.group(0), m.group(0)), text)


def main(argv):
    root = os.path.abspath(argv[0] if argv else ".")
    names = declared(root)
    turn = {n: spelled(n) for n in names}
    turn = {old: new for old, new in turn.items() if old != new}
    crates = set(os.listdir(os.path.join(root, "crates")))
    sources = list(files(os.path.join(root, "crates"), ".antt", ".rt", ".edit"))
    seen = set()
    for path in sources:
        if path.endswith(".antt"):
            seen.update(TOKEN.findall("\n".join(l for l in read(path).splitlines() if not l.lstrip().startswith("--"))))
    # Where a lemma would have the name of a definition or of a function, it gets `_lem`; a definition may have its function's name.
    definitions = {new for old, new in turn.items() if "-" not in old}
    for old, new in turn.items():
        if "-" in old and (new in definitions or new in seen):
            turn[old] = new + "_lem"
    # port.py has given some lemmas the name already.
    for old, new in list(turn.items()):
        if "-" not in old and new in names and new not in turn:
            turn[new] = new + "_lem"
    functions = set()
    for path in files(os.path.join(root, "crates"), ".rt"):
        functions.update(re.findall(r"\bfn (\w+)", read(path)))
    made = {}
    for old, new in turn.items():
        made.setdefault(new, []).append(old)
    clash = [f"{' and '.join(olds)} would be {new}" for new, olds in sorted(made.items()) if len(olds) > 1]
    clash += [f"{olds[0]} would be {new}, which stands there already" for new, olds in sorted(made.items()) if new in seen and new not in functions and new not in turn]
    if clash:
        print("\n".join(clash))
        return 1
    for path in sources:
        old = read(path)
        kept = theirs(old, crates)
        # What port.py gave a name to stands in proofs alone; in code the same word is a function's or a variable's.
        here = turn if path.endswith(".antt") else {o: n for o, n in turn.items() if o != o.lower() or "-" in o}
        new = turned(old, {o: n for o, n in here.items() if o not in kept})
        if new != old:
            with open(path, "w", encoding="utf-8") as f:
                f.write(new)
    known = declared(root)
    pages = [os.path.join(root, "README.md"), *files(os.path.join(root, "docs"), ".md")]
    for path in pages:
        old = read(path)

        def page(m):
            def one(t):
                w = t.group(0)
                s = spelled(w)
                return s if s != w and s in known or w in turn else w
            return "`" + TOKEN.sub(lambda t: turn.get(t.group(0), one(t)), m.group(1)) + "`"

        new = re.sub(r"`([^`\n]+)`", page, old)
        if new != old:
            with open(path, "w", encoding="utf-8") as f:
                f.write(new)
    print(f"{len(turn)} names turned")
    return 0


if __name__ == "__main__":
    raise SystemExit(main(sys.argv[1:]))
