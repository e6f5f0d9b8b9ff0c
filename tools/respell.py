#!/usr/bin/env python3
"""Brings the repository's own definitions, lemmas and record fields to snake case, as the toolchain's library spells them.

usage: python3 tools/respell.py            at the top of the checkout, once, after the toolchain's port.py

Names in camel case with a small first letter and names with dashes turn, as `grownTo` to `grown_to` and `two-paces` to
`two_paces`; types, modules, functions of src/ and what Rattle itself names (goals, invariants) stay. It prints each name that
would fall together with another in a file, and then writes nothing.
"""
import glob
import os
import re
import sys

# an antt identifier: what stands between blanks, brackets, dots and commas
TOKEN = re.compile(r"[^\s(){}\[\].,;\"«»|]+")
DEFINED = re.compile(r"(?:(?:pub|abbrev|unfoldable|data|record) )*([^\s(){}.,;:]+)(?: \{[^}]*\}| \([^)]*\))* :(?: |$)")
FIELD = re.compile(r"\s+(?:pub )?([^\s(){}.,;:=]+) : ")
# a library's name inside a lemma's stays joined by a dash; a lemma that would have the name of the definition that it is about, or of
# the function of src/ whose contract it proves, ends in _lem
BY_HAND = {"getD-same": "get_or-same"} | {
    name: name.replace("-", "_") + "_lem"
    for name in (
        "input-after input-reply counting-runs can-run growth-holds span-given spans-hold every-row premises-met words-read-back"
        " numbers-read-back scripts-read-back spans-read-back rehearsals-hold"
    ).split()
}
# variables and imports under another name, which no definition has
LOCALS = "highest-time j-is-k now-is votesView worldView numberOf".split()
# names that port.py had turned already, and that a definition's name now falls on
IN_FILE = {
    "crates/answers/proofs/Heard.antt": {"before_colon": "before_colon_lem"},
    "crates/world/proofs/Worlds.antt": {"all_valid": "all_valid_lem"},
}


def snake(name):
    if name in BY_HAND:
        return BY_HAND[name]
    return re.sub(r"(?<=[a-z0-9])([A-Z])", lambda m: "_" + m.group(1).lower(), name).replace("-", "_")


def turns(name):
    return name[0].islower() and name[-1] not in "-" and (("-" in name) or re.search(r"[a-z0-9][A-Z]", name)) and snake(name) != name


def own_files():
    """The files of definitions and lemmas; the answers of a function's proof, in a folder of their own, name goals."""
    return sorted(glob.glob("crates/*/specs/*.antt") + glob.glob("crates/*/proofs/*.antt"))


def names():
    found = set()
    for path in own_files():
        with open(path, encoding="utf-8") as f:
            for line in f:
                code = line.split("--")[0] if line.startswith("--") else line
                m = DEFINED.match(code) or FIELD.match(code)
                if m and turns(m.group(1)):
                    found.add(m.group(1))
    return {n: snake(n) for n in found | set(LOCALS)}


def functions():
    """The functions of src/: a definition may have the name of the function that it describes."""
    found = set()
    for source in glob.glob("crates/*/src/**/*.rt", recursive=True):
        with open(source, encoding="utf-8") as f:
            found |= set(re.findall(r"\bfn (\w+)", f.read()))
    return found


def all_files():
    for pattern in ("crates/*/src/**/*.rt", "crates/*/specs/**/*.antt", "crates/*/proofs/**/*.antt"):
        yield from sorted(p for p in glob.glob(pattern, recursive=True) if os.path.isfile(p))


def main():
    if not os.path.isfile("crates.txt"):
        sys.exit("respell: run me where crates.txt is")
    turned, described = names(), functions()
    texts, clashes = {}, []
    for path in all_files():
        with open(path, encoding="utf-8") as f:
            text = f.read()
        here = turned | IN_FILE.get(path, {})
        came = {}
        for t in sorted(set(TOKEN.findall(text))):
            new = here.get(t, t)
            if new in came and new not in described:
                clashes.append(f"{path}: {came[new]} and {t} both as {new}")
            came[new] = t
        texts[path] = TOKEN.sub(lambda m: here.get(m.group(), m.group()), text)
    if clashes:
        print("\n".join(clashes))
        sys.exit(f"respell: {len(clashes)} names would fall together; nothing was written")
    for path, text in texts.items():
        with open(path, "w", encoding="utf-8") as f:
            f.write(text)
    print(f"respell: {len(turned)} names turned")


main()
