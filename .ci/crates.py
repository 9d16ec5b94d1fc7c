"""The crates of this repository, and what each stands on."""

import os

ROOT = os.path.dirname(os.path.dirname(os.path.abspath(__file__)))


def read(path):
    with open(os.path.join(ROOT, path), "rb") as file:
        return file.read()


def write_text(path, text):
    """Writes a file that does not have this text."""
    if not os.path.exists(os.path.join(ROOT, path)) or read(path).decode() != text:
        with open(os.path.join(ROOT, path), "w", encoding="utf-8") as file:
            file.write(text)


def libraries_of_crates():
    """Returns the libraries that each crate uses, by its name, in the order of crates.txt."""
    uses = {}
    for line in read("crates.txt").decode().splitlines():
        head, _, libraries = line.partition("#")[0].partition(":")
        if head.strip():
            uses[head.split()[0]] = libraries.split()
    return uses


def version():
    """Returns the name and the version of the library, which the first line of crates.txt has."""
    return read("crates.txt").decode().splitlines()[0].removeprefix("# ").split()


def below(crate, uses):
    """Returns the crates of this repository that a crate stands on, each once, lowest first."""
    found = {}
    for library in uses[crate]:
        if library in uses:
            found.update(dict.fromkeys([*below(library, uses), library]))
    return list(found)


def files(crate, parts):
    """Yields each file in these folders of a crate, as its path from the root."""
    for part in parts:
        for folder, folders, names in os.walk(os.path.join(ROOT, "crates", crate, part)):
            folders.sort()
            for name in sorted(names):
                yield os.path.relpath(os.path.join(folder, name), ROOT)
