"""Shows that each mutant can be planted, since `rt ci` passes over one that can't: the file of crates/NAME/must-fail/*.edit names a
file, in which each text that it replaces stands once. There are at most MOST of them."""

import os

from checks.items import paths, text_of
from crates import ROOT, libraries_of_crates

MOST = 150  # each is tried at each gate, as docs/MAINTAINING.md says


def faults_of(crate, path):
    """Yields what is wrong with an edit."""
    lines = text_of(path).splitlines()
    names = [line.removeprefix("file: ") for line in lines if line.startswith("file: ")]
    target = os.path.join("crates", crate, names[0]) if len(names) == 1 else ""
    if not os.path.isfile(os.path.join(ROOT, target)):
        yield f"{path}: it names no file, or no single one"
        return
    text = text_of(target)
    for line in lines:
        if line.startswith("old: ") and text.count(line.removeprefix("old: ")) != 1:
            yield f"{path}: '{line}' does not stand in {target} once"


def check():
    """Returns what is wrong."""
    edits = [(crate, path) for crate in libraries_of_crates() for path in paths(crate, "must-fail/*.edit")]
    many = [f"there are {len(edits)} mutants, and may be {MOST}"] if len(edits) > MOST else []
    return [*many, *(fault for edit in edits for fault in faults_of(*edit))]
