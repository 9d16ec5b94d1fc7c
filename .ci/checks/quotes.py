"""Compares each block of README.md and docs/*.md in Rattle or antt with the file that it quotes, or with items of that file.

A block begins at a line ```rust or ```antt. The line before it names a file of this repository, as in
<!-- crates/examples/src/registry.rt -->, and the block is that whole file. Where names follow, as in
<!-- crates/examples/src/registry.rt: Registry register -->, the block is these items, each with its docs. The word imports
stands for the lines of the file that import words of contracts.

A block may not name no file, or differ from what it quotes, and a line that names a file may not stand alone, or above a block in
another language; what is written is what a block quotes.
"""

import os
import re

from crates import ROOT, read, write_text

BLOCK = re.compile(r"^((?:<!-- ([^\n]*?) -->\n)?```(?:rust|antt)[^\n]*\n)(.*?)^(```)$", re.M | re.S)
ALONE = re.compile(r"^<!-- (crates/[^\n]*?) -->\n(?!```(?:rust|antt))", re.M)


def item(lines, name):
    """Returns the lines of the item at the left margin with this name, from its docs to its end; or the imports of contracts."""
    if name == "imports":
        return [line for line in lines if line.startswith("ghost use ")]
    head = re.compile(rf"(?:pub )?(?:fn|struct|enum|trait|type|const|impl) {re.escape(name)}\b")
    start = next((i for i, line in enumerate(lines) if head.match(line)), None)
    if start is None:
        raise OSError(0, f"it has no item {name}")
    end = next(i for i in range(start, len(lines)) if lines[i] == "}" or (i == start and lines[i].endswith(";")))
    while start and lines[start - 1].startswith(("///", "#[")):
        start -= 1
    return lines[start : end + 1]


def source_of(words):
    """Returns what a block quotes: a file, or the items of it that are named behind a colon."""
    path, _, names = words.partition(":")
    text = read(path).decode()
    if not names:
        return text
    items = ["\n".join(item(text.splitlines(), name)) for name in names.split()]
    return "\n\n".join(items) + "\n"


def quoted(text, name, differing, faults):
    """Returns a document's text with each block as its source is. Adds to the lists what differs and what names no file."""

    def block_of(match):
        head, source, block, tail = match.groups()
        place = f"{name}:{text.count(chr(10), 0, match.start(3))}"
        if source is None:
            faults.append(f"{place}: the line before the block names no file, as <!-- crates/NAME/src/FILE.rt --> does")
            return match.group()
        try:
            wanted = source_of(source)
        except OSError as error:
            faults.append(f"{place}: {source}: {error.strerror}")
            return match.group()
        if block != wanted:
            differing.append(f"{place}: the block differs from {source}")
        return head + wanted + tail

    for match in ALONE.finditer(text):
        faults.append(f"{name}:{text.count(chr(10), 0, match.start()) + 1}: no block stands below the line that names {match.group(1)}")
    return BLOCK.sub(block_of, text)


def wanted_texts():
    """Returns the text of each document as it has to be, by its path, and two lists of faults: blocks that differ, and others."""
    texts, differing, faults = {}, [], []
    for path in ["README.md", *sorted(f"docs/{name}" for name in os.listdir(os.path.join(ROOT, "docs")) if name.endswith(".md"))]:
        texts[path] = quoted(read(path).decode(), path, differing, faults)
    return texts, differing, faults


def check():
    """Returns what is wrong."""
    _, differing, faults = wanted_texts()
    return faults + differing


def write():
    """Writes what the blocks quote."""
    for path, text in wanted_texts()[0].items():
        write_text(path, text)
