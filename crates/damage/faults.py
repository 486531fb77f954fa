#!/usr/bin/env python3
"""Says which faults the program `damage` shows. Each is put alone into a copy of crate table, and the program is run with no proof.

  python3 crates/damage/faults.py            some seconds a fault
  python3 crates/damage/faults.py apply      only says whether each can still be put there: a moment

A fault is seen when the program ends and writes something else than crates/damage/stdout, or does not end well. One that does not build,
or whose text is not in the source once, shows nothing, and the script fails."""
import os
import shutil
import subprocess
import sys
import tempfile

sys.dont_write_bytecode = True  # nothing is left beside the source
sys.path.insert(0, os.path.join(os.path.dirname(os.path.abspath(__file__)), "../../evidence"))
from planting import ROOT, Fault, apply_all, planted, why_not

# file below crates/table/src, what stands there (once), what is put in its place
FAULTS = [
    ("rules.rt", "if VARIABLES <= v {", "if 66 <= v {"),
    ("rules.rt", "if first_of(table.nodes, n) != e {", "if first_of(table.nodes, n) < e {"),
    ("rules.rt", "if spare_of(table.nodes, n) != 0 {", "if spare_of(table.nodes, n) == 77 {"),
    ("rules.rt", "if child_at(table.children, e) % 2 != 0 {", "if child_at(table.children, e) % 2 == 5 {"),
    ("rules.rt", "    if count != 2 {", "    if count == 99 {"),
    ("rules.rt", "|| !cuts_blank(table.cuts, e) {", "|| cuts_blank(table.cuts, e) && v == 99 {"),
    ("rules.rt", "if !blank_at(table.cuts, e + end) {", "if count == 99 {"),
    ("rules.rt", "if k <= low {", "if k < low {"),
    ("rules.rt", "        low = k;", "        low = low;"),
    ("rules.rt", "at <= n && v", "at <= n + 1 && v"),
    ("rules.rt", "v < var_below(nodes, at)", "v <= var_below(nodes, at)"),
    ("rules.rt", "v < var_below(nodes, at)", "0 < var_below(nodes, at)"),
    ("rules.rt", "if c == last || !child_stands(table.nodes, n, v, c) {", "if c == 99 || !child_stands(table.nodes, n, v, c) {"),
    ("rules.rt", "if c == last || !child_stands(nodes, n, v, c) {", "if c == 99 || !child_stands(nodes, n, v, c) {"),
    ("sound.rt", "rules_hold(table, n, e) == Some(word(table.index, rooms * 3 + n))", "rules_hold(table, n, e).is_some() && rooms > 0"),
    ("sound.rt", "        return names(table.index, bucket, n);", "        return true;"),
    ("sound.rt", "if u < before {", "if u + 9 < before {"),
    ("sound.rt", "if !names(table.index, rooms + m, n) {", "if m == 99 {"),
    ("sound.rt", "if home != bucket {", "if bucket == 9999 {"),
    ("sound.rt", "    comes_before(table, m, other, n, hash)", "    true"),
    ("sound.rt", "full_words(table.index, rooms + n) == n", "n != 99"),
    ("index.rt", "return g < h;", "return false;"),
    ("index.rt", "return v < w;", "return false;"),
    ("index.rt", "return count < other;", "return false;"),
    ("index.rt", "return x < y;", "return false;"),
    ("index.rt", "lower_at(cuts, a + i, b + i) {\n            return true;", "lower_at(cuts, a + i, b + i) {\n            return false;"),
    ("index.rt", "    }\n    false\n", "    }\n    true\n"),
    ("sound.rt", "zeros_from(table.nodes, n * RECORD_WORDS)", "n != 99"),
    ("sound.rt", "zeros_from(table.children, e)", "n != 99"),
    ("sound.rt", "blanks_from(table.cuts, e)", "n != 99"),
    ("sound.rt", "zeros_between(table.index, rooms + n, rooms * 2)", "n != 99"),
    ("sound.rt", "zeros_between(table.index, rooms * 2 + n, rooms * 3)", "n != 99"),
    ("sound.rt", "zeros_from(table.index, rooms * 3 + n)", "n != 99"),
    ("words.rt", "all |= words[i];", "all |= words[from];"),
    ("words.rt", "if z < LOWEST_CUT || HIGHEST < z {", "if z < LOWEST || HIGHEST < z {"),
    ("words.rt", "if z < LOWEST_CUT || HIGHEST < z {", "if z < LOWEST_CUT || 4294967296 < z {"),
    ("limits.rt", "MOST_NODES: usize = 4096;", "MOST_NODES: usize = 4097;"),
    ("limits.rt", "MOST_EDGE_ROOM: usize = 16384;", "MOST_EDGE_ROOM: usize = 16385;"),
    ("limits.rt", "MOST_EDGES: usize = 64;", "MOST_EDGES: usize = 65;"),
    ("read.rt", "(LOWEST..=HIGHEST)", "(-4294967298..=HIGHEST)"),
    ("read.rt", "(LOWEST..=HIGHEST)", "(LOWEST..=4294967296)"),
    ("read.rt", "if p < cut_position_at", "if p <= cut_position_at"),
    ("read.rt", "at = NodeId(c as u32).negate(at);", "at = NodeId(c as u32);"),
    ("read.rt", "let k = v - FIRST_BOOLEAN;", "let k = v - 33;"),
    ("read.rt", "    if b == 1 {", "    if b == 0 {"),
    ("read.rt", "places.iter().all(", "places[..31].iter().all("),
    ("calls.rt", "if places.len() != FIRST_BOOLEAN {", "if places.len() < FIRST_BOOLEAN {"),
    ("calls.rt", "if !id.is_known(used.nodes as u32) {", "if !id.is_known(used.nodes as u32 + 1) {"),
    ("calls.rt", "    table.index.fill(0);\n", ""),
    ("calls.rt", "    table.cuts.fill(0);\n", ""),
]


def faults():
    """The list above. A fault's name is its file and the change."""
    short = lambda text: " ".join(text.split()) or "(nothing)"
    return [Fault(f"table/{file}: {short(old)} -> {short(new)}", "table/src/" + file, old, new) for file, old, new in FAULTS]


def tried(root):
    """None where all is as expected, else FAIL and why where the program ran, or what `rt try` says first where it did not."""
    folder = os.path.join(root, "crates/damage")
    run = subprocess.run(["rt", "try"], cwd=folder, capture_output=True, text=True, timeout=300)
    with open(os.path.join(folder, "stdout"), encoding="utf-8") as file:
        wanted = file.read()
    if run.returncode == 0:
        return None if run.stdout == wanted else "FAIL: it writes something else"
    said = (run.stdout + run.stderr).strip().split("\n")
    return "FAIL: it does not end well" if run.returncode in (4, 5, 6) else said[0]


def verdict(root, fault):
    """Whether the program shows a fault, or why that shows nothing."""
    said = why_not(os.path.join(root, "crates"), fault)
    if said is None:
        with planted(os.path.join(root, "crates"), fault):
            said = tried(root)
    if said is None:
        return "not seen"
    return "seen" if said.startswith("FAIL: ") else f"SHOWS NOTHING ({said[:80]})"


def main():
    if sys.argv[1:] == ["apply"]:
        apply_all(faults())
    verdicts = []
    with tempfile.TemporaryDirectory() as root:
        shutil.copytree(os.path.join(ROOT, "crates"), os.path.join(root, "crates"), ignore=shutil.ignore_patterns("out"))
        shutil.copy(os.path.join(ROOT, "crates.txt"), root)
        assert tried(root) is None, "the program fails with no fault in it"
        for fault in faults():
            verdicts.append(verdict(root, fault))
            print("%-28s %s" % (verdicts[-1], fault.name), flush=True)
    seen, unseen = verdicts.count("seen"), verdicts.count("not seen")
    nothing = len(verdicts) - seen - unseen
    print(len(verdicts), "faults,", seen, "seen,", nothing, "show nothing")
    sys.exit(1 if nothing else 0)


if __name__ == "__main__":
    main()
