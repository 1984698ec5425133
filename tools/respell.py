#!/usr/bin/env python3
"""Brings this repository's own names to one spelling: words of specs/ and proofs/ in snake case, types and modules in camel case.

usage: python3 tools/respell.py [--list]      at the top of the repository, right after the kit's port.py

What is respelled: every word in lower camel case in .antt files and in the clauses of .rt files, and every name with a dash that a file of
specs/ or proofs/ declares. What a file imports from a library keeps its spelling there, as does what Rattle makes. Pages follow.
Must-fail edits are not turned. --list only prints the names. Names that fall together are printed: of a lemma and a definition the lemma gets _lem after its name.
"""

import collections
import glob
import re
import sys

WORD = re.compile(r"0x[0-9A-Fa-f_]+|[^\s(){}\[\].,;:\"@?|`*]+")
DECLARED = re.compile(r"(?:(?:abbrev|unfoldable|pub|data|record|ruleset)\s+)*([^\s:(){}.]+)\s*(?::|\{|\()")
NO_DECLARATION = re.compile(r"(use|mod|pub mod|open|unfolding|infix\w*|--|\s)")
OWN = re.compile(r"Rattle\.(\w+)\.")
# Lemmas that had their definition's name but for the spelling, which port.py turned already.
LEMMAS = {"crates/before_tables/proofs/": "no_table", "crates/list_run/proofs/Cutting.antt": "goes_on"}


def snake(name):
    turned = re.sub(r"(?<=[a-z0-9'])([A-Z])", lambda m: "_" + m.group(1).lower(), name)
    return turned.replace("-", "_")


def is_camel(word):
    return re.match(r"[a-z][A-Za-z0-9_'-]*[a-z0-9][A-Z]|[a-z]+[A-Z]", word) and not re.fullmatch(r"n[0-9A-F]+|κs", word)


def sources():
    found = []
    for pattern in ("crates/*/specs/**/*.antt", "crates/*/proofs/**/*.antt"):
        found += glob.glob(pattern, recursive=True)
    return sorted(found)


def crates():
    return {path.split("/")[1] for path in glob.glob("crates/*/src")}


def imported(text, own):
    """The names that a file takes from a library."""
    names = set()
    for path, braces in re.findall(r"use\s+([^\s{};]+?)\.\{([^}]*)\}", text):
        crate = OWN.match(path + ".")
        if crate and crate.group(1) in own:
            continue
        for item in braces.split(","):
            names.add(item.split(" as ")[0].strip())
    return names


def own_names(own):
    """Names with a dash that the repository declares, and every word in lower camel case."""
    dashed, camel = set(), set()
    for path in sources():
        text = open(path, encoding="utf-8").read()
        inside = False
        for line in text.splitlines():
            declared = DECLARED.match(line)
            if declared and not NO_DECLARATION.match(line):
                if "-" in declared.group(1):
                    dashed.add(declared.group(1))
            indented = re.match(r"\s+(?:(?:abbrev|unfoldable|pub)\s+)*([^\s:(){}.,;]+)\s*:\s", line)
            if indented and "-" in indented.group(1):
                dashed.add(indented.group(1))
            inside = line.startswith(("data", "pub data", "record", "pub record")) or (inside and line.startswith(" "))
            if inside and line.startswith(" "):
                field = re.match(r"\s+([^\s:(){}.]+)\s*:", line)
                if field and "-" in field.group(1):
                    dashed.add(field.group(1))
            for word in WORD.findall(line.split("--")[0]):
                if is_camel(word):
                    camel.add(word)
    return dashed, camel


def respelled(text, names, kept):
    return WORD.sub(lambda m: names[m.group(0)] if m.group(0) in names and m.group(0) not in kept else m.group(0), text)


def together(names):
    by_new = collections.defaultdict(set)
    for old, new in names.items():
        by_new[new].add(old)
    existing = set()
    for path in sources():
        for line in open(path, encoding="utf-8"):
            declared = DECLARED.match(line)
            if declared and not NO_DECLARATION.match(line):
                existing.add(declared.group(1))
    clashes = []
    for new, olds in sorted(by_new.items()):
        olds = olds | ({new} & existing)
        if len(olds) > 1:
            clashes.append((new, sorted(olds)))
    return clashes


def main():
    own = crates()
    dashed, camel = own_names(own)
    names = {name: snake(name) for name in dashed | camel if snake(name) != name}
    if "--list" in sys.argv:
        for old in sorted(names):
            print(old, names[old])
        return 0
    texts = {path: open(path, encoding="utf-8").read() for path in sources()}
    for new, olds in together(names):
        where = [path for path, text in texts.items() if sum(old in set(WORD.findall(text)) for old in olds) > 1]
        print(f"together: {new}: {' '.join(olds)}{': ' + ' '.join(where) if where else ''}")
        for old in olds:
            if "-" in old:
                names[old] = new + "_lem"
    for path, text in texts.items():
        for start, lemma in LEMMAS.items():
            if path.startswith(start):
                texts[path] = text = respelled(text, {lemma: lemma + "_lem"}, set())
    for path, text in texts.items():
        new = respelled(text, names, imported(text, own) - {n for n in names if is_camel(n)})
        open(path, "w", encoding="utf-8").write(new)
    for path in glob.glob("crates/*/src/**/*.rt", recursive=True):
        text = open(path, encoding="utf-8").read()
        new = respelled(text, names, imported(text, own))
        open(path, "w", encoding="utf-8").write(new)
    words = set()
    for path in sources():
        words.update(WORD.findall(open(path, encoding="utf-8").read()))
    for path in glob.glob("docs/*.md") + ["README.md"]:
        text = open(path, encoding="utf-8").read()
        cited = {word: snake(word) for word in WORD.findall(text) if is_camel(word) and snake(word) in words}
        open(path, "w", encoding="utf-8").write(respelled(text, cited, set()))
    return 0


if __name__ == "__main__":
    raise SystemExit(main())
