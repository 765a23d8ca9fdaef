#!/usr/bin/env python3
# SPDX-License-Identifier: MIT
"""Respells the definitions and lemmas of crates/ as today's Rattle spells them.

usage: tools/respell.py [FOLDER]     once, after the kit's port.py, at the top of the checkout

Words go to snake case, primes to apostrophes. Types, modules and facts have upper camel case
already; the standard's own symbols (S, D, Q, P, K1, ..) keep their letters. A lemma that would
get the name of a definition ends in _lem. Names of functions, fields and variants of src/ keep
their spelling, and so do strings and comments, but for names of definitions in comments.
"""
import collections
import os
import re
import sys

ROOT = os.path.join(sys.argv[1] if len(sys.argv) > 1 else ".", "crates")
NAME = r"[^\s(){}\[\];.,:λ`]+"
# Words that are English, or that Rattle makes, and no names of this repository's.
KEPT = {"loop-init", "loop-preserved", "loop-holds", "loop-again"}
ENGLISH = {"well-formed"}
# Names that would fall together with one that port.py made.
OTHERWISE = {"withByte": "with_inserted"}
LEMMAS = {"step_back": "step_back_lem"}


def files(endings):
    for folder, folders, names in os.walk(ROOT):
        folders[:] = sorted(f for f in folders if f != "out")
        for name in sorted(names):
            if name.endswith(endings):
                yield os.path.join(folder, name)


def read(path):
    with open(path, encoding="utf-8") as f:
        return f.read()


def snake(name):
    name = re.sub(r"(?<=[a-z0-9₀-₉¹])([A-Z])", r"_\1", name).replace("-", "_").replace("′", "'")
    # A symbol of the standard in first place keeps its letters.
    return name if name[0].isupper() else "".join(c.lower() if c.isascii() else c for c in name)


def declared():
    """Names that files of specs/ and proofs/ declare: which are types, and which stand in specs/."""
    names, types, stated = collections.OrderedDict(), set(), set()
    for path in files(".antt"):
        proof = path.endswith("/Proof.antt")
        for line in read(path).split("\n"):
            kind = re.match(r"(?:pub )?(?:record|data) (%s)" % NAME, line)
            if kind:
                types.add(kind.group(1))
            word = re.match(r"\s*(?:abbrev |unfoldable )?(?:pub )?(%s) : ?" % NAME, line)
            if not word or "◌" in word.group(1):
                continue
            name = word.group(1)
            # Of the proof of a function only the theorem is named from outside.
            if proof and not (name.endswith("-spec") or name.endswith("_spec")):
                continue
            names[name] = True
            if "/specs/" in path:
                stated.add(name)
    return [n for n in names if n not in types and n not in KEPT], stated


def aliases():
    found = set()
    for path in files((".antt", ".rt")):
        for line in re.findall(r"^\s*(?:ghost |pub )*use [^\n]*", read(path), re.M):
            found |= {a for a in re.findall(r" as (\w+)", line) if re.search(r"[a-z][A-Z]", a) and a[0].islower()}
    return found


def plan():
    names, stated = declared()
    to = {}
    camel = [n for n in names if "-" not in n]
    taken = {snake(n) if n[0].islower() else n for n in camel}
    for n in camel:
        if n[0].islower() and snake(n) != n:
            to[n] = snake(n)
    for n in names:
        if "-" in n:
            new = snake(n)
            to[n] = new + "_lem" if new in taken else new
    for n in sorted(aliases()):
        to.setdefault(n, snake(n))
    to.update(OTHERWISE)
    back = collections.defaultdict(set)
    for old, new in to.items():
        back[new].add(old)
    for new, olds in back.items():
        if len(olds) > 1:
            sys.exit(f"respell: {sorted(olds)} would all be {new}")
    return to


TOKEN = re.compile(r"(?<![\w⁻¹₀-₉'′·◌-])[^\W\d](?:[\w⁻¹₀-₉'′]|-(?=[\w⁻¹]))*")


def turn(text, to):
    def one(m):
        word = m.group(0)
        start = text.rfind("\n", 0, m.start()) + 1
        if word in ENGLISH and re.search(r"--|//", text[start : m.start()]):
            return word
        after_dot = m.start() > 0 and text[m.start() - 1] == "."
        if word in to:
            new = to[word]
            # A step of the code, and no lemma.
            if after_dot and new.endswith("_lem") and new[:-4] == snake(word):
                before = text[: m.start() - 1]
                path = re.search(r"[\w.'⁻¹-]*$", before).group(0)
                if not path.startswith("Rattle"):
                    return snake(word)
            return new
        if after_dot and "-" in word and re.search(r"(?:^|[^\w.])(?:c|[a-z]\w*)(?:\.[\w-]+)*$", text[: m.start() - 1]):
            return word
        return word.replace("′", "'") if "′" in word else word

    return TOKEN.sub(one, text)


def in_edits(to):
    """What port.py respelled itself, for the edits, which it leaves."""
    present = set()
    for path in files((".antt", ".rt")):
        present |= set(TOKEN.findall(read(path)))
    for path in files(".edit"):
        for word in TOKEN.findall(read(path)):
            if word not in to and word not in present and word[0].islower() and snake(word) in present:
                to[word] = snake(word)


def main():
    to = plan()
    changed = 0
    in_edits(to)
    for path in files((".antt", ".rt", ".edit")):
        old = read(path)
        lemmas = LEMMAS if path.endswith("standard/proofs/RegisterLaws.antt") else {}
        new = turn(old, {**to, **lemmas}).replace("′", "'")
        if new != old:
            with open(path, "w", encoding="utf-8") as f:
                f.write(new)
            changed += 1
    print(f"respell: {len(to)} names, {changed} files")
    if os.environ.get("RESPELL_NAMES"):
        with open(os.environ["RESPELL_NAMES"], "w", encoding="utf-8") as f:
            for old, new in sorted(to.items()):
                f.write(f"{old}\t{new}\n")


main()
