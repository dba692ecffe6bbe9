#!/usr/bin/env python3
"""Brings the repository's own names in specs/ and proofs/ to the spelling of today's Rattle, once, after the kit's own scripts.

usage: python3 tools/respell.py          at the top of the repository

Words are in snake case, types and facts in upper camel case. A name that comes from the library, or that Rattle makes
from the code (in proofs/ of a function), keeps its dashes. The edits of definitions, and names between backticks in the
documents, follow. It stops where two names would fall together in one file.
"""

import collections
import os
import re
import sys

DASHED = re.compile(r"(?<![\w'\-◌.])([A-Za-z][\w']*(?:-[\w'≤<≡*+]+)+)|(?<=\.)([A-Za-z][\w']*(?:-[\w'≤<≡*+]+)+)")
USE = re.compile(r"^\s*(?:pub |ghost )*use ([\w.'«»]+)\.\{([^}]*)\}")
WORD = re.compile(r"[\w'◌«»]+(?:-[\w'≤<≡*+]+)*")
# Words in camel case, and a fact in small letters.
ODD = {"returnBlock": "return_block", "returnAll": "return_all", "readCall": "read_call", "writeCall": "write_call", "blockOf": "block_of", "accepts": "Accepts"}
# Constructors that have the name of a method get another name where the method stands beside them.
BESIDE = {"return_block": "return_block_call", "return_all": "return_all_call"}


def files(*ends):
    for folder, dirs, names in os.walk("crates"):
        dirs[:] = sorted(d for d in dirs if d != "out")
        for f in sorted(names):
            if f.endswith(ends):
                yield os.path.join(folder, f)


def own_file(path):
    """A file of definitions or lemmas, and not the proof of one function, whose names Rattle makes."""
    return re.search(r"/specs/|/proofs/[A-Z]\w*\.antt$", path)


def code(path, line):
    return line.split("-- ")[0] if path.endswith(".antt") else line.split("//")[0]


def library_names():
    found = set()
    for p in files(".antt", ".rt"):
        for line in open(p, encoding="utf-8"):
            m = USE.match(line)
            if m and (re.match(r"Rattle\.(std|core|logic)\b", m[1]) or not m[1].startswith("Rattle.") or m[1].endswith(("Goals", "Given"))):
                found.update(re.split(r"[,\s]+", m[2]))
    return found


def respelled(name):
    if name[0].isupper():
        return "".join(part[0].upper() + part[1:] for part in name.split("-"))
    return name.replace("-", "_")


def mapping():
    library = library_names()
    names = set()
    for p in files(".antt"):
        if own_file(p):
            for line in open(p, encoding="utf-8"):
                names.update(a or b for a, b in DASHED.findall(code(p, line)))
    names -= library
    return {n: respelled(n) for n in names} | ODD


def renamer(names):
    pattern = re.compile(r"(?<![\w'\-◌])(" + "|".join(re.escape(n) for n in sorted(names, key=len, reverse=True)) + r")(?![\w'\-◌])")
    return lambda text: pattern.sub(lambda m: names[m[1]], text)


def outside_strings(change, line):
    return '"'.join(change(part) if i % 2 == 0 else part for i, part in enumerate(line.split('"')))


def together(names):
    """Where an old name stands beside a word that is spelled as the new one is."""
    for p in files(".antt", ".rt"):
        text = "".join(code(p, line) + "\n" for line in open(p, encoding="utf-8"))
        words = set(WORD.findall(text))
        # Functions of the code, and folders of proofs, are no names of definitions.
        words -= set(re.findall(r"\bfn (\w+)", text)) | set(re.findall(r"(?<=[a-z]\.)\w+(?=\.(?:Goals|Given)\b)", text))
        for old, new in names.items():
            if old in words and new in words:
                yield f"{p}: {old} and {new}"
        seen = collections.defaultdict(set)
        for old in words & names.keys():
            seen[names[old]].add(old)
        for new, olds in seen.items():
            if len(olds) > 1:
                yield f"{p}: {sorted(olds)} become {new}"


def write(path, text):
    with open(path, "w", encoding="utf-8") as f:
        f.write(text)


def turn_file(path, change):
    lines = open(path, encoding="utf-8").read().split("\n")
    out = []
    for line in lines:
        body, mark, comment = line.partition("-- " if path.endswith(".antt") else "//")
        out.append(outside_strings(change, body) + mark + comment)
    text = "\n".join(out)
    if path.endswith(".rt"):
        m = re.search(r"^ghost use Rattle\.level\.specs\.Level\.Call\.\{([^}]*)\}", text, re.M)
        if m:
            for word, other in BESIDE.items():
                if re.search(rf"\b{word}\b", m[1]):
                    text = re.sub(rf"(?<!fn )(?<!\.)\b{word}\b(?!\()", other, text)
                    text = text.replace(other, f"{word} as {other}", 1)
    write(path, text)


def turn_edit(path, change):
    """An edit of a definition: its names have lost their dashes by now, in this script or in the kit's."""
    text = open(path, encoding="utf-8").read()
    if "file: specs/" in text:
        text = change(DASHED.sub(lambda m: respelled(m[0]), text))
        write(path, text)


def turn_page(path, change, names):
    known = set(names.values())
    for p in files(".antt"):
        known.update(WORD.findall(open(p, encoding="utf-8").read()))

    def quoted(m):
        return "`" + DASHED.sub(lambda n: respelled(n[0]) if respelled(n[0]) in known else n[0], change(m[1])) + "`"

    text = open(path, encoding="utf-8").read()
    write(path, re.sub(r"`([^`\n]+)`", quoted, text))


def main():
    if not os.path.isdir("crates"):
        sys.exit("run it at the top of the repository")
    names = mapping()
    clashes = sorted(together(names))
    if clashes:
        sys.exit("names that fall together:\n" + "\n".join(clashes))
    change = renamer(names)
    for p in list(files(".antt", ".rt")):
        turn_file(p, change)
    for p in list(files(".edit")):
        turn_edit(p, change)
    pages = ["README.md"] + [os.path.join("docs", f) for f in sorted(os.listdir("docs")) if f.endswith(".md")]
    for p in pages:
        turn_page(p, change, names)
    print(f"respelled {len(names)} names")


if __name__ == "__main__":
    main()
