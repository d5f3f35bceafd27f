#!/usr/bin/env python3
"""Spells the definitions and lemmas of this repository as today's library spells its own: facts and
types in camel case, every other name in snake case.

usage: python3 tools/respell.py [--list]      at the top of the repository, once

Names are taken from specs/ and proofs/, where they are declared: signatures, fields, constructors.
A name that a proof file gives to a goal of the check stays, and so does a name that the library has.
Only names with a hyphen are respelled, and the two of IN_FILE; comments, strings, inputs and outputs
stay, and so does code, which has no such name.
"""

import os
import re
import sys

WORD = r"[^\s(){}\[\].;,:\"«»|]+"
HEAD = re.compile(r"^(?P<pad>\s*)(?P<marks>(?:(?:abbrev|pub|unfoldable|data|record|open)\s+)*)(?P<name>" + WORD + r")(?P<rest>(?:\s.*)?)$")
# Left-over is a fact of a package; the cause of a fault of that name is another.
EXTRA = {"Left-over": "IsLeftOver", "λ-and": "both_hold"}
# facts that one file names in small letters, as other files name values
IN_FILE = {
    "crates/file_format/proofs/Once.antt": {"below": "AllRightBelow"},
    "crates/sheet/proofs/Spends.antt": {"answered": "IsAnswered"},
}


def files(root, ends):
    for folder, dirs, names in os.walk(root):
        dirs[:] = sorted(d for d in dirs if d not in ("out", "must-fail", "data", ".git"))
        for name in sorted(names):
            if name.endswith(ends):
                yield os.path.join(folder, name)


def read(path):
    with open(path, encoding="utf-8") as f:
        return f.read()


def code_lines(text):
    """Lines without comments, each with what is cut off kept out."""
    return [re.sub(r"(^|\s)--(\s.*)?$", "", line) for line in text.split("\n")]


def declared(path):
    """The names that a file declares, each with whether it stands for a fact or a type."""
    lines = code_lines(read(path))
    found = {}
    for at, line in enumerate(lines):
        head = HEAD.match(line)
        if not head:
            continue
        name, marks, rest = head["name"], head["marks"], head["rest"].strip()
        if name in ("use", "mod", "module", "ruleset", "let", "where", "elim", "in", "unfolding", "=", "|", "→", "λ"):
            continue
        sort = "record" in marks or "data" in marks
        if not sort and not re.match(r":(\s|$)", rest):
            continue
        signature = rest[1:]
        if not sort:
            pad = len(head["pad"])
            for more in lines[at + 1 :]:
                if not more.strip() or len(more) - len(more.lstrip()) <= pad:
                    break
                signature += " " + more.strip()
            if re.match(r"\s*goal\.", signature):
                continue
            sort = re.split(r"→", signature)[-1].strip() == "Type 0"
        found[name] = found.get(name, False) or sort
    return found


def spelled(name, sort):
    quoted = name.split("-")
    if sort or name[0].isupper():
        return "".join(part[:1].upper() + part[1:] for part in re.split(r"[-_]", name)) if sort else None
    return "_".join(quoted)


def library_names():
    """The names that some file of the repository takes from the library."""
    own = "|".join(sorted(os.listdir("crates")))
    names = set()
    for path in files("crates", (".antt", ".rt")):
        for line in re.findall(r"use ([^;\n]*)\.\{([^}]*)\}", read(path)):
            if not re.match(rf"Rattle\.({own})\.", line[0]):
                names.update(word.strip().split(" as ")[0] for word in line[1].split(","))
    return names


def renamed(text, table, comment):
    """Each name of the table where it stands as a word, outside comments and texts."""
    out = []
    for line in text.split("\n"):
        cut = re.search(r"(^|\s)" + comment + r"(\s|$)", line)
        body, tail = (line[: cut.start()], line[cut.start() :]) if cut else (line, "")
        parts = re.split(r"(\"(?:[^\"\\]|\\.)*\")", body)
        for i in range(0, len(parts), 2):
            parts[i] = re.sub(r"[^\s(){}\[\].;,:\"«»|]+", lambda m: table.get(m[0], m[0]), parts[i])
        out.append("".join(parts) + tail)
    return "\n".join(out)


def main(argv):
    found = {}
    for path in files("crates", (".antt",)):
        for name, sort in declared(path).items():
            if "-" in name:
                found.setdefault(name, set()).add(sort)
    library = library_names()
    table, said = {}, []
    for name in sorted(found):
        if name in library:
            said.append(f"kept, since the library has it: {name}")
            continue
        sort = True in found[name]
        if len(found[name]) > 1:
            said.append(f"declared both as a fact and as a value: {name}")
        new = EXTRA.get(name) or spelled(name, sort)
        if new is None:
            said.append(f"kept, a capital that is no type: {name}")
            continue
        table[name] = new
    back = {}
    for name, new in table.items():
        if new in back:
            said.append(f"fall together: {name} and {back[new]} as {new}")
        back[new] = name
    known = {}
    for path in files("crates", (".antt", ".rt")):
        for word in set(re.findall(r"[\w']+", "\n".join(code_lines(read(path))))):
            known.setdefault(word, set()).add(path)
    for name, new in table.items():
        if new in known:
            places = sorted(known[new])
            said.append(f"stands already: {new} (for {name}) in {len(places)}: {' '.join(places[:4])}")
    if "--list" in argv:
        for name, new in table.items():
            print(f"{name}  {new}")
        print("\n".join(said))
        return 0
    for path in files("crates", (".antt",)):
        text = read(path)
        new = renamed(text, table | IN_FILE.get(path, {}), "--")
        if new != text:
            with open(path, "w", encoding="utf-8") as f:
                f.write(new)
    for path in files("crates", (".rt",)):
        text = read(path)
        new = renamed(text, table, "//")
        if new != text:
            with open(path, "w", encoding="utf-8") as f:
                f.write(new)
    print("\n".join(said))
    return 0


if __name__ == "__main__":
    raise SystemExit(main(sys.argv[1:]))
