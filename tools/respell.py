#!/usr/bin/env python3
"""Brings the repository's own definitions and lemmas to the spelling of its Rattle: words in snake case, types in camel case, and a dash only
where it joins two names. Run once, at the top of the repository, right after the kit's port.py; it turns specs/, proofs/ and the ghost use
lines and clauses of src/, and the edits of must-fail/ by the same table.

    tools/respell.py            turns the files
    tools/respell.py --table    prints the table, old and new name, and changes nothing
"""
import collections
import glob
import os
import re
import sys

NAME = r"[^\s(){}.;,@\"«»\[\]\\λ:]+"
HEAD = re.compile(r"(?:(?:pub|abbrev|unfoldable|opaque) )*(data|record)? ?(" + NAME + r")(?: :|$| \(| \{)")
WORD = re.compile(r"[A-Za-z0-9_'′+*·-]+")
CAMEL = re.compile(r"[a-z][a-z0-9]*(?:[A-Z][a-z0-9]*)+")
# The library's words that the repository's lemmas are named after.
LIBRARY = set("length take drop sum append map min max cond pos neg set".split())
# A lemma that has the spelling of a definition already: its name, and the folder whose files cite it.
APART = {"opening_on": ("opening_on_lem", "crates/steps/specs/")}


def texts():
    for kind in ("specs", "proofs"):
        yield from sorted(glob.glob(f"crates/*/{kind}/**/*.antt", recursive=True))


def read(path):
    with open(path, encoding="utf-8") as file:
        return file.read()


def declared():
    """The names that files of definitions and lemmas declare; what a function's own proof declares is left out."""
    names = collections.Counter()
    for path in texts():
        if os.path.basename(path) == "Proof.antt":
            continue
        for line in read(path).splitlines():
            found = HEAD.match(line)
            if found and not line.startswith(("use ", "--", "unfolding", "mod ", "pub mod", " ")):
                names[found.group(2)] += 1
            # what a module or a record inside the file declares
            inner = re.match(r" +pub (" + NAME + r") :", line)
            if inner:
                names[inner.group(1)] += 1
    return names


def snake(word):
    """camelCase as snake_case; what begins with a capital stays."""
    return re.sub(r"(?<=[a-z0-9])([A-Z])", lambda m: "_" + m.group(1).lower(), word) if CAMEL.fullmatch(word) else word


def joined(name, known):
    """A lemma's name: a dash between two names of definitions, else an underscore."""
    parts = [snake(it) for it in name.split("-")]
    if "" in parts:
        return name
    ways = []

    def cut(at, taken):
        if at == len(parts):
            ways.append(taken)
            return
        for end in range(at + 1, len(parts) + 1):
            word = "_".join(parts[at:end])
            if word in known or word[0].isupper() or not word[0].isalpha():
                cut(end, taken + [word])

    if parts[0] in LIBRARY:
        cut(0, [])
    return "-".join(min(ways, key=len)) if ways else "_".join(parts)


def table():
    names = declared()
    words = [set(re.findall(NAME, re.sub(r"--[^\n]*|\"[^\"]*\"", "", read(path)))) for path in texts()]
    turned = {word: snake(word) for each in words for word in each if CAMEL.fullmatch(word)}
    # the names that clauses give to definitions
    for path in sorted(glob.glob("crates/*/src/**/*.rt", recursive=True)):
        turned.update({word: snake(word) for word in re.findall(r"\bas (\w+)", read(path)) if CAMEL.fullmatch(word)})
    defs = {snake(it) for it in names if "-" not in it} | LIBRARY
    for name in names:
        if "-" in name:
            new = joined(name, defs)
            taken = new != name and (new in names or new in turned.values() or any(name in each and new in each for each in words))
            turned[name] = new + "_lem" if taken else new
    return {old: new for old, new in turned.items() if old != new}, names


def collisions(turned, names):
    to = collections.defaultdict(set)
    for name in set(names) | set(turned):
        to[turned.get(name, name)].add(name)
    return {new: old for new, old in to.items() if len(old) > 1}


def borrowed(text, own):
    """The names that a file takes from a library, which keep their spelling there."""
    out = set()
    for module, items in re.findall(r"(?m)^use ([\w.]+)\.\{([^}]*)\}", text):
        parts = module.split(".")
        if parts[0][0].islower() or parts[0] == "Prim" or parts[0] == "Rattle" and parts[1] not in own:
            out |= set(re.split(r"[,\s]+", items))
    return out


def turn(text, turned):
    return WORD.sub(lambda m: turned.get(m.group(0), m.group(0)), text)


def main(argv):
    turned, names = table()
    own = set(os.listdir("crates"))
    if argv == ["--table"]:
        for old in sorted(turned):
            print(old, turned[old])
        for new, old in sorted(collisions(turned, names).items()):
            print("together:", new, *sorted(old))
        return 0
    for path in list(texts()) + sorted(glob.glob("crates/*/src/**/*.rt", recursive=True)) + sorted(glob.glob("crates/*/must-fail/*.edit")):
        text = read(path)
        apart = {old: new for old, (new, folder) in APART.items() if path.startswith(folder)}
        kept = borrowed(text, own)
        new = turn(text, {old: new for old, new in {**turned, **apart}.items() if old not in kept})
        if new != text:
            with open(path, "w", encoding="utf-8") as file:
                file.write(new)
            print(path)
    return 0


if __name__ == "__main__":
    sys.exit(main(sys.argv[1:]))
