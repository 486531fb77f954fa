#!/usr/bin/env python3
"""Brings the names of this repository's own definitions and lemmas to today's spelling: words in snake case (`firstPlace` and
`after-cut` become `first_place` and `after_cut`). Run once, at the top, on what /opt/rattle/port/port.py made of the commit in the
first line of docs/PORT.md; docs/PORT.md says what came of it.

What is renamed: each name that begins with a small letter and is declared in a file of crates/*/specs or crates/*/proofs (definitions,
lemmas, fields, constructors, local definitions with a type). Types, facts and modules keep their capitals; names that a file takes
from the library are left alone, and so are functions of src/, strings, inputs and outputs. Where two names would fall together, the
definition has the plain name and the lemma gets `_lem` (APART).
"""
import glob
import os
import re

OWN = set(os.listdir("crates"))
WORD = r"[^\s(){}\[\],.:;λ⌜⌝\"=`|]+"
DECLARED = re.compile(r"^\s*(?:(?:abbrev|unfoldable|pub|record|data|private)\s+)*(" + WORD + r")(?:\s*[({][^:]*?:.*?[)}])*\s*:\s")

# Names that would fall together with a definition's, wherever they stand.
APART = {
    "child-at": "child_at_lem",
    "cut-above": "cut_above_lem",
    "edges-of": "edges_of_lem",
    "first-at": "first_at_lem",
    "front-in": "front_in_lem",
    "hash-to": "hash_to_lem",
    "is-before": "is_before_lem",
    "is-yes": "is_yes_lem",
    "most-edges": "edges_at_most",
    "most-nodes": "nodes_at_most",
    "same-node": "same_node_lem",
    "var-of": "var_of_lem",
    "zero-cut": "zero_cut_lem",
}
# Lemmas that port.py had given the name that a definition gets here: only in files that declare or import them.
LEMMAS = {
    "edges_fit": "edges_fit_lem",
    "hash_at": "hash_at_lem",
    "kid_at": "kid_at_lem",
    "node_at": "node_at_lem",
    "same_edges": "same_edges_lem",
    "stored_cut": "stored_cut_lem",
}
# One file's own.
ALONE = {
    "crates/algebra/proofs/Commuting.antt": {"low_first": "low_goes_first"},
    "crates/ranges/proofs/Positions.antt": {"and-true": "and_true"},
}


def read(path):
    with open(path, encoding="utf-8") as f:
        return f.read()


def write(path, text):
    with open(path, "w", encoding="utf-8") as f:
        f.write(text)


def logic():
    return sorted(glob.glob("crates/*/specs/*.antt") + glob.glob("crates/*/proofs/*.antt"))


def snake(name):
    parts = (re.sub(r"(?<=[a-z0-9])([A-Z])(?=[a-z0-9]|$)", lambda m: "_" + m.group(1).lower(), p) for p in name.replace("′", "'").split("-"))
    return "_".join(parts)


def declared():
    """The names to respell: declared in a file of specs/ or proofs/, and not the library's."""
    names, taken = set(), set()
    for path in logic():
        for line in read(path).split("\n"):
            if line.lstrip().startswith("--") or re.match(r"\s*(pub )?(use|mod) ", line):
                continue
            m = DECLARED.match(line + " ")
            if m and re.match("[a-z]", m.group(1)):
                names.add(m.group(1))
    for path in glob.glob("crates/*/specs/*.antt") + glob.glob("crates/*/proofs/**/*.antt", recursive=True):
        for m in re.finditer(r"^use (\S+?)\.\{(.*)\}", read(path), re.M):
            parts = m.group(1).split(".")
            if not (parts[0] == "Rattle" and parts[1] in OWN):
                taken |= {n.strip().split(" as ")[0] for n in m.group(2).split(",")}
    return {n: APART.get(n, snake(n)) for n in sorted(names - taken) if APART.get(n, snake(n)) != n}


def turn(text, names):
    return re.sub(WORD, lambda m: names.get(m.group(0), m.group(0)), text)


def in_quotes(text, names):
    return re.sub(r"`[^`\n]+`", lambda m: turn(m.group(0), names), text)


def antt(path, names):
    text = read(path)
    mine = {k: v for k, v in LEMMAS.items() if re.search(r"^\s*(pub )?" + k + r" [:(]", text, re.M) or re.search(r"^use Rattle\.\S*proofs\.\S*\{[^}]*\b" + k + r"\b", text, re.M)}
    here = names | ALONE.get(path, {})

    def one(m):
        word = m.group(0)
        if word in mine and text[m.start() - 1 : m.start()] != ".":
            return mine[word]
        return here.get(word, word)

    out = []
    at = 0
    for line in text.split("\n"):
        code, dash, said = line, "", ""
        m = re.search(r"(^|\s)--(\s|$)", line)
        if m:
            cut = m.start() + len(m.group(1))
            code, dash, said = line[:cut], line[cut : cut + 2], line[cut + 2 :]
        new = []
        last = 0
        for w in re.finditer(WORD, code):
            new.append(code[last : w.start()])
            word = w.group(0)
            before = code[w.start() - 1 : w.start()]
            new.append(mine[word] if word in mine and before != "." else here.get(word, word))
            last = w.end()
        new.append(code[last:])
        out.append("".join(new) + dash + in_quotes(said, here))
    write(path, "\n".join(out))


def rust(path, names):
    """Words outside strings; in comments, words in backquotes alone."""
    out = []
    for line in read(path).split("\n"):
        m = re.search(r"(^|\s)//", line)
        code, said = (line[: m.start()], line[m.start() :]) if m else (line, "")
        pieces = re.split(r'("(?:[^"\\]|\\.)*")', code)
        out.append("".join(p if p.startswith('"') else turn(p, names) for p in pieces) + in_quotes(said, names))
    write(path, "\n".join(out))


def main():
    names = declared()
    for path in sorted(glob.glob("crates/*/specs/*.antt") + glob.glob("crates/*/proofs/**/*.antt", recursive=True)):
        antt(path, names)
    for path in sorted(glob.glob("crates/*/src/**/*.rt", recursive=True)):
        rust(path, names)
    for path in sorted(glob.glob("crates/*/must-fail/*.edit")):
        write(path, "\n".join(turn(line, names) if re.match("(old|new):", line) else line for line in read(path).split("\n")))
    for path in ["README.md", "CONTRIBUTING.md", "tools/believed", *sorted(glob.glob("docs/**/*.md", recursive=True)), *sorted(glob.glob("crates/*/README.md"))]:
        write(path, in_quotes(read(path), names))
    print(len(names), "names")


main()
