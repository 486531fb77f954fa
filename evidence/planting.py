"""Faults that a script puts into a copy of the source, one at a time: what `evidence/faults` and `crates/damage/faults.py` both do with
their lists. A fault is found by the text that stands in its place, so a list rots where the source is changed: `apply_all` says which
faults no longer apply, in a moment and with nothing compiled."""
import contextlib
import glob
import os
import sys
from typing import NamedTuple

ROOT = os.path.dirname(os.path.dirname(os.path.abspath(__file__)))


class Fault(NamedTuple):
    name: str
    file: str  # below crates/
    old: str  # what stands there, once
    new: str  # what is put in its place


def read(path):
    with open(path, encoding="utf-8") as file:
        return file.read()


def write(path, text):
    with open(path, "w", encoding="utf-8") as file:
        file.write(text)


def elsewhere(crates, old):
    """The files of code that have a text, for one who has to mend a list after a move."""
    files = sorted(glob.glob(os.path.join(crates, "*/src/**/*.rt"), recursive=True))
    return [os.path.relpath(file, crates) for file in files if old in read(file)]


def why_not(crates, fault):
    """None where a fault applies to the crates in a folder, else why it does not."""
    path = os.path.join(crates, fault.file)
    many = read(path).count(fault.old) if os.path.isfile(path) else None
    if many == 1:
        return "what is put there is what stands there" if fault.new == fault.old else None
    if many:
        return f"its text is there {many} times"
    reason = "there is no such file" if many is None else "its text is not there"
    found = elsewhere(crates, fault.old)
    return f"{reason}; it stands in {', '.join(found) or 'no file'}"


@contextlib.contextmanager
def planted(crates, fault):
    """A fault stands in the crates in a folder, and is taken back afterwards."""
    reason = why_not(crates, fault)
    assert reason is None, f"{fault.name}: {fault.file}: {reason}"
    path = os.path.join(crates, fault.file)
    text = read(path)
    write(path, text.replace(fault.old, fault.new))
    try:
        yield
    finally:
        write(path, text)


def apply_all(faults):
    """Says which faults do not apply to the source as it is, and ends with status 1 where there is one."""
    reasons = [(fault, why_not(os.path.join(ROOT, "crates"), fault)) for fault in faults]
    stale = [(fault, reason) for fault, reason in reasons if reason]
    for fault, reason in stale:
        print(f"does not apply: {fault.name}\n  crates/{fault.file}: {reason}:\n    " + fault.old.strip("\n").replace("\n", "\n    "))
    print(f"{len(faults)} faults, {len(stale)} do not apply")
    sys.exit(1 if stale else 0)
