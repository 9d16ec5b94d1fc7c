"""The documents: their paragraphs, their headings, and the files of the repository that they may name."""

import functools
import os
import re

from crates import ROOT, read

ENDINGS = (".rt", ".antt", ".edit", ".md", ".py", ".c", ".txt", ".unproved", ".svg", ".rs")
# Parts of paths that stand for any name.
ANY = {"CRATE", "FILE", "FUNCTION", "MODULE", "SUBJECT", "WHAT_IT_DOES_WRONG", "my_program"}
BLOCK = re.compile(r"^(?:<!--[^\n]*-->\n)?```.*?^```$", re.M | re.S)


def repository_files():
    """Yields each file and folder as its path from the root, without what `rt` and Python make."""
    for folder, folders, names in os.walk(ROOT):
        folders[:] = [it for it in folders if it not in (".git", "out", "__pycache__")]
        yield from (os.path.relpath(os.path.join(folder, name), ROOT) for name in [*folders, *names])


FILES = sorted(repository_files())
DOCUMENTS = [path for path in FILES if re.fullmatch(r"(?:docs/)?\w+\.md", path)]
ENDS = {path.split("/", i)[i] for path in FILES for i in range(path.count("/") + 1)} | {"out", "docs/tolkzin"}


def is_path(text):
    """Says whether a word is to be read as a path of this repository."""
    return bool(re.fullmatch(r"[\w.*-][\w.*/-]*", text)) and ("/" in text or text.endswith(ENDINGS))


def pattern_of(part):
    if part == "...":
        return r"[\w/]+"
    stem, dot, ending = part.partition(".")
    return r"\w+" + re.escape(dot + ending) if stem in ANY else re.escape(part).replace(r"\*", r"\w+")


def is_file(text):
    """Says whether a path is one of this repository, or the end of one."""
    path = text.rstrip("/")
    pattern = "/".join(map(pattern_of, path.split("/")))
    return path in ENDS or pattern != re.escape(path) and any(re.fullmatch(pattern, it) for it in ENDS)


def prose(path):
    """Returns a page with empty lines in place of its blocks of code."""
    return BLOCK.sub(lambda match: "\n" * match.group().count("\n"), read(path).decode())


def paragraphs(path):
    """Yields each paragraph of a page, and each row of its tables, behind its line."""
    line = 1
    for part in re.split(r"(\n(?:\s*\n|(?=\|)))", prose(path)):
        if part.strip():
            yield line, part
        line += part.count("\n")


@functools.lru_cache(None)
def headings(path):
    """Returns the headings of a page as links name them."""
    return {re.sub(r"[^\w\- ]", "", it.lower()).replace(" ", "-") for it in re.findall(r"^#+ (.*)$", prose(path), re.M)}
