#!/usr/bin/env python3
"""Spells the repository's own definitions, lemmas and record fields as the library does: words in snake case, types and modules
in camel case. Run once at the top, after the toolchain's own converter."""
import glob
import re
import sys

# Names that would fall together, or with a tactic, or that hold an older word.
APART = {
    "first_of": "first_ranked",
    "firstOf": "first_ranked",
    "firstOf-first": "first_ranked_first",
    "firstOf-has": "first_ranked_has",
    "kind-byte": "kind_byte_lem",
    "least-weight": "least_weight_lem",
    "sizes-fit": "sizes_fit_lem",
    "turns-from": "turns_from_lem",
    "getD-indexOf": "get_or_index_of",
    "indexOf-getD": "index_of_get_or",
}
TOKEN = re.compile(r"[^\s(){}\[\];.,\"|]+")
DEFINED = re.compile(r"^\s*(?:(?:pub|abbrev|unfoldable|let|field|private)\s+)*([^\s(){}\[\];.,\"|:]+)\s+:\s")
GOAL = re.compile(r":\s*goal\.")


def snake(name):
    if name in APART:
        return APART[name]
    if name[0].isupper() or not name[0].isalpha():
        return name
    name = re.sub(r"(?<=[a-z0-9])([A-Z])(?=[a-z0-9])", lambda m: "_" + m.group(1).lower(), name)
    return name.replace("-", "_")


def own_names(files):
    names = {}
    for path in files:
        for line in open(path, encoding="utf-8"):
            if line.lstrip().startswith("--") or GOAL.search(line):
                continue
            found = DEFINED.match(line)
            if found:
                names.setdefault(found.group(1), path)
    return names


def aliases(files):
    names = {}
    for path in files:
        for line in open(path, encoding="utf-8"):
            if re.match(r"\s*(ghost )?use Rattle\.", line):
                for alias in re.findall(r"\bas ([a-z][^\s(){}\[\];.,]*)", line):
                    names.setdefault(alias, path)
    return names


def respell(text, table):
    return TOKEN.sub(lambda m: table.get(m.group(0), m.group(0)), text)


def main():
    antt = sorted(glob.glob("crates/*/specs/**/*.antt", recursive=True) + glob.glob("crates/*/proofs/**/*.antt", recursive=True))
    rust = sorted(glob.glob("crates/*/src/**/*.rt", recursive=True))
    names = own_names(antt)
    names.update(aliases(antt + rust))
    table = {old: snake(old) for old in names if snake(old) != old}
    new = {}
    for old in list(names):
        new.setdefault(snake(old), set()).add(old)
    for word, olds in sorted(new.items()):
        if len(olds) > 1:
            print("fall together:", word, sorted(olds), [names[o] for o in olds])
    for path in antt + rust:
        text = open(path, encoding="utf-8").read()
        turned = respell(text, table)
        if turned != text:
            open(path, "w", encoding="utf-8").write(turned)
    if "--table" in sys.argv:
        for old in sorted(table):
            print(old, table[old])
    print(len(table), "names respelled")


main()
