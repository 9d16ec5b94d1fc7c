"""Refuses steps of the cells that no contract and no test sees.

A contract of a sequenced cell counts the loads and stores of the seats that it is lent. It does not see a step of the table that
takes no seat, or makes one for itself, nor a further kind of step that does not count. So no code of the cells may name such a
step, and the kinds are those that KINDS lists. A byte-wise cell loads and stores its bytes in order, each once, by the code of WALKS:
no contract speaks of these, and no test tells in which order they happen.
"""
import glob
import os
import re

from crates import ROOT

SEATLESS = re.compile(r"\b(?:peek|park|park_timeout|wake_one|wake_all|load_new_seat|swap_new_seat)\b")
KIND = re.compile(r"\bPlay<[^{}]*?> for (\w+)")
KINDS = ["Claim", "End", "LoadVersion", "LoadWord", "Store"]
WALKS = [
    "{ MaybeTorn::new(array::from_fn(|i| self.bytes[i].load(Ordering::SeqCst))) }",
    "for (cell, byte) in self.bytes.iter().zip(&encoding) { cell.store(*byte, Ordering::SeqCst); }",
]


def check():
    """Returns what is wrong."""
    faults, code = [], ""
    for path in sorted(glob.glob("crates/ix_atomic/src/**/*.rt", root_dir=ROOT, recursive=True)):
        with open(os.path.join(ROOT, path), encoding="utf-8") as file:
            text = re.sub(r"//.*", "", file.read())
        faults += [f"{path} names {name}, which takes no seat" for name in SEATLESS.findall(text)]
        code += " ".join(text.split())
    kinds = sorted(KIND.findall(code))
    if kinds != KINDS:
        faults.append(f"the kinds of steps are {', '.join(kinds)}")
    if code.count("Ordering::") > len(WALKS) or not all(walk in code for walk in WALKS):
        faults.append("a byte-wise cell takes other steps than those of WALKS")
    return faults
