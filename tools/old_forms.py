#!/usr/bin/env python3
"""Count the places in crates/*/src that are written in an older form than Rattle has today.

usage: tools/old_forms.py [ROOT]

A line for each place, under the point of docs/DESIGN-PASS.md that it belongs to, and the counts last. ROOT is a checkout
of this repository; without it, the one that this file stands in.
"""

import re
import sys
from pathlib import Path

NUMBER = re.compile(r"^(0x[0-9a-fA-F_]+|[0-9][0-9_]*)(u8|u16|u32|u64|usize)?$")
TYPES = {"u8", "u16", "u32", "u64", "usize"}
TOKEN = re.compile(r'"[^"]*"|b"[^"]*"|[A-Za-z_][A-Za-z0-9_]*|[0-9][0-9a-zA-Z_]*|->|=>|::|\.\.=?|[<>=!]=|&&|\|\||<<|>>|\S')


def without_ghosts(text):
    """The code alone: no comments, clauses or ghost lines."""
    text = re.sub(r"//[^\n]*", "", text)
    out, i = [], 0
    clause = re.compile(r"\b(requires|ensures)\b[^{}\n]*\{|\bghost [^\n]*;|#!?\[[^\n]*\]")
    while True:
        m = clause.search(text, i)
        if not m:
            return "".join(out) + text[i:]
        out.append(text[i : m.start()])
        i = m.end()
        if text[m.end() - 1] == "{":
            depth = 1
            while depth:
                depth += {"{": 1, "}": -1}.get(text[i], 0)
                i += 1


def items(text, word):
    """Each `word` item of the code: its name, its line, its tokens."""
    for m in re.finditer(r"\b%s ([A-Za-z_][A-Za-z0-9_]*)" % word, text):
        i = text.find("{", m.end())
        end = text.find(";", m.end())
        if i < 0 or (0 <= end < i and "[" not in text[m.end() : end]):
            continue
        depth, j = 1, i + 1
        while depth and j < len(text):
            depth += {"{": 1, "}": -1}.get(text[j], 0)
            j += 1
        yield m.group(1), TOKEN.findall(text[m.start() : j])


def shape(tokens):
    """The tokens with the item's own name and what it binds by their first place, numbers and widths as one."""
    fields = "struct" in tokens[:2]
    bound = {tokens[1]}
    for before, t, after in zip([""] + tokens, tokens, tokens[1:] + [""]):
        if not fields and (before in ("let", "mut", "for", "|", "(") and after in (":", "=", "in", "|", ",", ";") or after == ":"):
            bound.add(t)
    seen, out = {}, []
    for t in tokens:
        if NUMBER.match(t):
            out.append("0")
        elif t in TYPES:
            out.append("u")
        elif t in bound:
            out.append(seen.setdefault(t, "n%d" % len(seen)))
        else:
            out.append(re.sub(r"(?<=[A-Za-z_])[0-9]+", "", t))
    return " ".join(out)


def main():
    root = Path(sys.argv[1]) if len(sys.argv) > 1 else Path(__file__).resolve().parent.parent
    files = sorted(root.glob("crates/*/src/**/*.rt"))
    found = {n: [] for n in range(1, 8)}
    shapes = {}
    requires = {}
    for path in files:
        name = str(path.relative_to(root / "crates"))
        text = path.read_text()
        for k, line in enumerate(text.split("\n"), 1):
            place = f"{name}:{k}: {line.strip()}"
            if re.match(r"\s+(pub )?refusal: u32,$", line) or re.match(r"\s+(pub )?failed: bool,$", line):
                found[1].append(place)
            if re.match(r"pub const [A-Z_]+: u32 = [0-9]+;$", line) and "standard" in name:
                found[1].append(place)
            if re.search(r"fn \w*(lengths|lengths_and_output|refusal|fault\w*)\(.*-> u32$", line):
                found[1].append(place)
            if re.match(r"\s+Unknown,$|\s+(pub )?sides: u64,$", line) or re.search(r"\boperation: u8\b", line):
                found[1].append(place)
            if re.match(r"\s+while ", line):
                found[3].append(place)
            if re.search(r"#\[derive\(Drop\)\]", line):
                found[4].append(place)
            if re.search(r"fn (wide|pair|word|number\w*|bytes3|bytes_of|half_bytes|halves10|block_of|xor_number|least|lower|higher|same)\b", line):
                if not re.search(r"self|Algorithm|rt:", line):
                    found[4].append(place)
            m = re.match(r"\s+requires\b[^{]*(\{.*\})$", line)
            if m:
                key = (name.split("/")[0], re.sub(r"\bk[abcd]\b", "k", m.group(1)))
                requires.setdefault(key, []).append(place)
            if re.match(r"\s+(pub )?len: usize,$", line) or re.match(r"\s+k[b]: &\[u8", line):
                found[6].append(place)
            if re.search(r"\bback: bool\b|\bruns: bool\b", line):
                found[7].append(place)
        code = without_ghosts(text)
        for word, least in (("fn", 24), ("struct", 10)):
            for item, tokens in items(code, word):
                if "extern" not in code or word == "struct":
                    if len(tokens) >= least and "main" != item:
                        shapes.setdefault(shape(tokens), []).append(f"{name}: {word} {item}")
    for places in requires.values():
        if len(places) >= 3:
            found[5].extend(places)
    for places in shapes.values():
        if len(places) > 1:
            found[2].append("; ".join(places))
    for n, places in found.items():
        print(f"point {n}:")
        for p in places:
            print("    " + p)
    for n, places in found.items():
        print(f"point {n}: {len(places)}")


if __name__ == "__main__":
    main()
