"""The examples of calls and types: bodies of tests that name what they show.

Above a test of a crate `doc_examples..` stand lines `// Shows: MetaQueue, MetaQueue::try_push, Clone for FixedSizeQueue`. A name is
a type or a trait, alone or with a call of it, a function behind its module, or a trait and a type that has it. Where several
pages have a name, as `Iter::next`, the example is shown on those that have a type of its body.

python3 -m reference.examples    prints the calls of the reference that have no example, but for laws, and the types and
                                        traits that have none, but for errors, enums and what only proofs need
"""

import collections
import re
import textwrap

from crates import libraries_of_crates
from checks.items import paths, text_of

SHOWS = re.compile(r"((?:^// Shows: .*\n)+)((?:(?:///?|#\[).*\n)*)fn \w+[^{]*\{\n((?:.*\n)*?)\}$", re.M)
COMMA = re.compile(r", (?![^(]*\))")
# What ends a test and shows nothing.
FRAME = re.compile(r"\n\s*(?:Ok\(\(\)\)|findings\.verdict\(\))\n?\Z")

# names: what it shows. lines: the body as a page shows it. words: those of the body and of the names.
Example = collections.namedtuple("Example", "names lines words")


def example_of(shows, body):
    names = [name.strip() for line in shows.splitlines() for name in COMMA.split(line.removeprefix("// Shows: "))]
    lines = textwrap.dedent(FRAME.sub("\n", body)).strip("\n").splitlines()
    return Example(names, lines, set(re.findall(r"\w+", body + " ".join(names))))


def all_paths(crate):
    """Returns the files of a crate's tests, and of those that are only run."""
    return [*paths(crate, "src/**/*.rt"), *paths(crate, "unproved/*.unproved")]


def read():
    """Returns the examples, and a fault for each file with a `Shows` that is above no test."""
    found, faults = [], []
    for crate in libraries_of_crates():
        for path in all_paths(crate) if crate.startswith("doc_examples") else ():
            text = text_of(path)
            tests = [(shows, body) for shows, between, body in SHOWS.findall(text) if "#[test]" in between]
            if sum(shows.count("// Shows: ") for shows, _ in tests) != text.count("// Shows:"):
                faults.append(f"{path}: a line `// Shows:` is not above a test")
            found += [example_of(*it) for it in tests]
    return found, faults


def assigned(known, types):
    """Returns the lines of the shortest example by page and by name, and what is wrong with the names.

    `known` has the pages of each name, `types` the names of the types of each page.
    """
    examples, faults = read()
    found = collections.defaultdict(list)
    for example in examples:
        for name in example.names:
            pages = known.get(name, ())
            near = [page for page in pages if example.words & types[page]]
            if not pages:
                faults.append(f"`// Shows: {name}`: the reference has no {name}")
            for page in near or pages:
                found[page, name].append(example.lines)
    return {key: min(bodies, key=len) for key, bodies in found.items()}, faults


def main():
    from reference.api import pages_with_names

    known, types, wanted = pages_with_names()
    found, faults = assigned(known, types)
    lacking = [names[0] for page, names in wanted if not any((page, name) in found for name in names)]
    print("\n".join([*faults, *(name for name in lacking if not name.endswith("_law"))]))


if __name__ == "__main__":
    main()
