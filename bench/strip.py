#!/usr/bin/env python3
"""strip.py SRC_REPO OUT_DIR: the libraries of a Rattle repository, which are those that crates.txt lists up to `spanwhistle`, without
contracts, as modules of one plain Rust crate OUT_DIR/lib.rs, and bench/calls.txt as module `calls`.

Strips `requires {..}`, `ensures {..}`, `invariant {..}`, `decreases {..}`/`variant {..}` (balanced braces), with a name before the brace
or without; what is ghost, up to its `;`, or with its braces and the `;` or `,` behind them: `use` lines, fields of structs, members of traits and
impls; the attributes `tactic` and `cycle`, and `Drop` in a derive, which Rust has no need of. It leaves everything else as it stands, but:
`ids::X` becomes `crate::ids::X`, and so for each crate; every module is public, and no function is exported under its bare name, so that it is
called by its path and the archive of what `rt` compiled can be linked beside it."""
import os, re, sys

CLAUSE = re.compile(r"(requires|ensures|invariant|decreases|variant|maintains)\b(\s+\w+)?\s*\{")

def balanced(s, i):
    """s[i] is '{': the place behind its '}'."""
    depth = 0
    while True:
        if s[i] == "{":
            depth += 1
        elif s[i] == "}":
            depth -= 1
            if depth == 0:
                return i + 1
        i += 1

def strip(s, crates):
    out = []
    i = 0
    while i < len(s):
        if s.startswith("//", i):
            j = s.find("\n", i)
            j = len(s) if j < 0 else j
            out.append(s[i:j]); i = j
            continue
        at_word = i == 0 or not (s[i - 1].isalnum() or s[i - 1] in "_.'")
        if at_word:
            m = CLAUSE.match(s, i)
            if m:
                i = balanced(s, m.end() - 1)
                continue
            if re.match(r"ghost\b", s[i:i + 6]):
                while s[i] not in ";{":
                    i += 1
                if s[i] == "{":
                    i = balanced(s, i)
                    if s[i:i + 1] in (";", ","):
                        i += 1
                else:
                    i += 1
                continue
        out.append(s[i]); i += 1
    t = "".join(out)
    t = re.sub(r"(?<![\w:])(" + "|".join(crates) + ")::", r"crate::\1::", t)
    t = re.sub(r"^[ \t]*#!?\[(tactic|cycle)\(.*?\)\]\n", "", t, flags=re.M | re.S)
    t = re.sub(r"#\[derive\(([^)]*)\)\]", derived, t)
    t = re.sub(r"^mod ", "pub mod ", t, flags=re.M).replace("#[unsafe(no_mangle)]\n", "")
    t = re.sub(r"[ \t]+\n", "\n", t)
    return re.sub(r"\n{3,}", "\n\n", t).lstrip("\n")

def derived(attribute):
    """A derive without what Rust cannot derive, or nothing where none is left."""
    traits = [name.strip() for name in attribute.group(1).split(",")]
    kept = ", ".join(name for name in traits if name != "Drop")
    return f"#[derive({kept})]" if kept else ""

def put(src, dst, crates):
    t = strip(open(src, encoding="utf-8").read(), crates)
    code = re.sub(r"//.*", "", t)
    assert code.isascii() and not re.search(r"\b(ghost|requires|ensures)\b", code), src
    open(dst, "w", encoding="utf-8").write(t)

def libraries(repo):
    """The crates of crates.txt, up to `spanwhistle`."""
    listed = re.findall(r"^(\w+)(?: \w+)*:", open(os.path.join(repo, "crates.txt"), encoding="utf-8").read(), flags=re.M)
    return listed[:listed.index("spanwhistle") + 1]

def main():
    repo, out = sys.argv[1:3]
    crates = libraries(repo)
    for crate in crates:
        src = os.path.join(repo, "crates", crate, "src")
        dst = os.path.join(out, crate)
        os.makedirs(dst, exist_ok=True)
        for f in sorted(os.listdir(src)):
            if f.endswith(".rt"):
                put(os.path.join(src, f), os.path.join(dst, "mod.rs" if f == "lib.rt" else f[:-3] + ".rs"), crates)
    put(os.path.join(repo, "bench", "calls.txt"), os.path.join(out, "calls.rs"), crates)
    open(os.path.join(out, "lib.rs"), "w").write("".join(f"pub mod {m};\n" for m in crates + ["calls"]))

main()
