#!/usr/bin/env python3
"""Brings this repository's own names to today's spelling: words in snake case, a dash only where it joins two names.

usage: tools/respell.py [--list]   at the top, once, right after the kit's port.py

It reads which names specs/ and proofs/*.antt declare, and respells them there, in the clauses of src/, and in the files
Proof.antt that cite them. Names of src/, names that Rattle makes and names of the library stay as they are.
"""
import collections
import os
import re
import sys

# `first_of` is a tactic's name today, and port.py had given it to the order of tests.
CHOSEN = {"first_of": "first_number"}
# Functions that a dash joins to another: those of the library, and four lemmas on two functions of our own.
LIBRARY = {"length", "take", "drop", "get_or", "set", "replicate", "paste"}
JOINED = {("bit", "from_bits"), ("from_bits", "bit"), ("blocks_of", "join"), ("last_or", "append")}
# The pages of demands call a module as the function it is of, and a field of their records too.
READS = re.compile(r"(use Rattle\.[\w.]+\.Reads as )(?!the_)(\w+)")
DECLARED = re.compile(r"^\s*(?:(?:unfoldable|abbrev|pub|ruleset|data|record) )*([^\s(){};,.:]+)\s*(?:[({][^\n]*[)}]\s*)?:\s")
CONSTRUCTOR = re.compile(r"^  (?:pub )?([^\s(){};,.:]+) : ")
TOKEN = re.compile(r"[^\s(){};,.:@«»\[\]]+")


def files(ending):
    for folder, _, names in sorted(os.walk("crates")):
        for name in sorted(names):
            if name.endswith(ending) and "/out" not in folder:
                yield os.path.join(folder, name)


def is_shared(path):
    """Whether a file's names are its author's: of specs/, or of a file of lemmas."""
    parts = path.split(os.sep)
    return parts[2] == "specs" or (parts[2] == "proofs" and len(parts) == 4)


def declared():
    found = collections.OrderedDict()
    for path in files(".antt"):
        if is_shared(path):
            for line in open(path, encoding="utf-8"):
                it = DECLARED.match(line) or CONSTRUCTOR.match(line)
                if it:
                    found.setdefault(it[1], set()).add(path)
        else:
            for line in open(path, encoding="utf-8"):
                it = re.match(r"^(?:pub )?(\S+)-spec : ", line)
                if it:
                    found.setdefault(it[1] + "-spec", set()).add(path)
    return found


def snake(word):
    word = word.replace("getD", "get_or")
    if not re.search("[a-z0-9][A-Z]", word) or word[0].isupper():
        return word
    return re.sub("([a-z0-9])([A-Z])", lambda it: it[1] + "_" + it[2].lower(), word)


def respelled(name, functions):
    if name in CHOSEN:
        return CHOSEN[name]
    pieces = [snake(it) for it in name.split("-")]
    plain = "_".join(pieces)
    if len(pieces) == 1 or name.endswith("-spec"):
        return plain
    left, right = pieces[0], "_".join(pieces[1:])
    if left in LIBRARY and (right in functions or left != "set") or (left, right) in JOINED:
        return left + "-" + right
    # A lemma that would have its function's name.
    return plain + "_lem" if plain in functions else plain


def table():
    found = declared()
    functions = {snake(it) for it, paths in found.items() if "-" not in it and any(f"{os.sep}specs{os.sep}" in p for p in paths)}
    return {it: respelled(it, functions) for it in found if respelled(it, functions) != it} | CHOSEN


def main():
    turned = table()
    if "--list" in sys.argv:
        for old, new in turned.items():
            print(old, new)
    clashes = 0
    for path in [*files(".antt"), *files(".rt")]:
        with open(path, encoding="utf-8") as it:
            text = it.read()
        if path.startswith(os.path.join("crates", "demands", "proofs")):
            aliases = [it[2] for it in READS.finditer(text)]
            text = READS.sub(r"\1the_\2", text)
            for it in aliases:
                text = re.sub(rf"(?<![\w.-]){it}\.(Post|Pre|Reads)\b", rf"the_{it}.\1", text)
        code, shared = path.endswith(".rt"), is_shared(path)

        def turn(it):
            word = it[0]
            # In src/ only names that Rust could not have are turned, and those chosen; in a Proof.antt what follows a dot is
            # Rattle's name of a step, after the function that is called.
            if code and not re.search("[a-z][A-Z]", word) and word not in CHOSEN:
                return word
            new = turned.get(word, word)
            if not shared and text[it.start() - 1] == "." and new.endswith("_lem"):
                new = new[:-4]
            return new

        now = {}
        for it in TOKEN.finditer(text):
            if text[it.start() - 1] != ".":
                now.setdefault(turn(it), set()).add(it[0])
        for new, olds in now.items():
            if len(olds) > 1 and not code:
                clashes += 1
                print(f"clash: {path}: {' '.join(sorted(olds))} -> {new}")
        new = TOKEN.sub(turn, text)
        if "--list" not in sys.argv:
            with open(path, "w", encoding="utf-8") as it:
                it.write(new)
    print(f"names: {len(turned)}; clashes: {clashes}")
    return 1 if clashes else 0


sys.exit(main())
