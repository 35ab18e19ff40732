#!/usr/bin/env python3
"""Brings the names of definitions and lemmas to snake case: isValid to is_valid, read-second to read_second.

usage: tools/respell.py [--dry] ROOT

Every name that an .antt file of ROOT/crates declares in another spelling is turned, wherever it stands in .antt and .rt
files, and in must-fail edits and documents where it is in camel case. Types, modules, names of the library, goals, and
functions of src/ keep their spelling. A lemma that would get the name of what it is about ends in _lem. Names of one .antt
file that would still fall together are printed, and nothing is written then.

Two more spellings are turned: the library's AllByRecursion loses the alias All, which is now another word of the
library's, and a member of a bound that stands alone in a clause gets its type before it, as M.words.
"""

import os
import re
import sys

# Lemmas that the kit's script gave the spelling of the definition that they are about.
LEMMAS = {"walked_to": "walked_to_lem"}
# Members that stand alone, and what is written for them now.
MEMBERS = {"words memory.now": "M.words memory.now", "reads source.now": "S.reads source.now", "fits x query.now": "X.fits x query.now"}
SIGNATURE = re.compile(r"^\s*(?:let )?(?:(?:pattern|unfoldable|abbrev|pub) )*([^\s(){}\[\],;:.]+)(?: \{[^}]*\})? : ")
INLINE = re.compile(r"^\s*abbrev pub (\S+) :")
ALIAS = re.compile(r"(?<=\sas )([a-z]\w*)")
TOKEN = re.compile(r"[^\s(){}\[\],;:.`|\"⟨⟩«»]+")


def files(root, kinds, folders=("crates",)):
    for folder in folders:
        for at, dirs, names in os.walk(os.path.join(root, folder)):
            dirs[:] = sorted(d for d in dirs if d not in ("out", "target", ".git"))
            for name in sorted(names):
                if name.endswith(kinds):
                    yield os.path.join(at, name)


def read(path):
    with open(path, encoding="utf-8") as f:
        return f.read()


def respelt(name):
    name = re.sub(r"(?<=[a-z0-9])([A-Z])", lambda m: "_" + m.group(1).lower(), name)
    return name.replace("-", "_").replace("′", "'")


def plain(name):
    """A function's or a lemma's name, and no type, operator, variable or number."""
    return bool(re.fullmatch(r"[a-z][A-Za-z0-9_'′-]*", name))


def declared(root):
    found, imported = set(), set()
    for path in files(root, (".antt",)):
        for line in read(path).split("\n"):
            m = SIGNATURE.match(line)
            if m and plain(m.group(1)) and not line.rstrip().endswith(": goal." + m.group(1)):
                found.add(m.group(1))
            for use in re.findall(r"^use (?!Rattle\.(?!std\.)\w+\.)[\w.·]+\.\{([^}]*)\}", line):
                imported |= {w.strip() for w in use.split(",")}
    for path in files(root, (".antt", ".rt")):
        for line in read(path).split("\n"):
            if re.match(r"\s*(ghost )?use ", line):
                found |= set(ALIAS.findall(line))
    return {n for n in found if respelt(n) != n and n not in imported}


def spelt(path, text):
    """The two more spellings."""
    if path.endswith(".rt"):
        for old, new in MEMBERS.items():
            text = re.sub(r"(?<![\w.])" + re.escape(old), new, text)
    if "AllByRecursion as All" in text:
        text = text.replace("AllByRecursion as All", "AllByRecursion")
        text = TOKEN.sub(lambda m: "AllByRecursion" if m.group(0) == "All" else m.group(0), text)
    return text


def main(argv):
    dry = "--dry" in argv
    root = [a for a in argv if a != "--dry"][0]
    names = {n: respelt(n) for n in declared(root)}
    antt = {p: set(TOKEN.findall(re.sub(r"(?m)^use \S+\.(?:Goals|Given) as .*$", "", read(p)))) for p in files(root, (".antt",))}
    camel = {n: s for n, s in names.items() if "-" not in n}
    for n in names.keys() - camel.keys():
        if names[n] in camel.values() or any(n in tokens and names[n] in tokens for tokens in antt.values()):
            names[n] += "_lem"
    names |= LEMMAS
    bad, changed = [], {}
    jobs = [(p, names) for p in files(root, (".antt", ".rt"))]
    jobs += [(p, camel) for p in files(root, (".edit",))]
    jobs += [(p, camel) for p in files(root, (".md",), ("docs",))] + [(os.path.join(root, "README.md"), camel)]
    for path, table in jobs:
        text = read(path)
        turned = {}
        tokens = antt.get(path, set()) - LEMMAS.keys()
        for t in tokens & table.keys():
            turned.setdefault(table[t], []).append(t)
        if path.endswith(".antt"):
            bad += [f"{path}: {', '.join(olds)} and {new}" for new, olds in turned.items() if new in tokens or len(olds) > 1]
        new = spelt(path, TOKEN.sub(lambda m: table.get(m.group(0), m.group(0)), text))
        if new != text:
            changed[path] = new
    print("\n".join(bad))
    print(f"{len(names)} names, {len(changed)} files, {len(bad)} that fall together")
    if dry:
        print(" ".join(sorted(names)))
    if bad or dry:
        return int(bool(bad))
    for path, text in changed.items():
        with open(path, "w", encoding="utf-8") as f:
            f.write(text)
    return 0


if __name__ == "__main__":
    raise SystemExit(main(sys.argv[1:]))
