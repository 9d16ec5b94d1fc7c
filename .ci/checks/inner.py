"""Shows that no public contract cites specs/inner/, and that public contracts rest on the rest of specs/.

It fails if a public item of the library, hidden or not, cites an inner word in its contract or in what an impl of a trait pins, and
if a file of specs/ outside inner/ and laws/ uses one of them. And it fails if a definition outside of these is one that no public contract rests
on: neither cites it, nor cites a definition that rests on it, unless it is for the contracts of callers. Nor may a public contract cite a word of a crate below that
specs/Lib.antt does not pass on, since a caller would have to name that crate for it.
"""

import re

from checks.items import LIBRARY, is_shown, items_of, paths, public_modules, text_of, trait_of, words_of

WORD = re.compile(r"[^\W\d][\w-]*")
DEFINITION = re.compile(r"^( *)(?:unfoldable |abbrev )?pub (?!mod |use )(?:record |data )?(\S+)(?=[ :])")
# What an index means by itself is no more a promise to callers than the invariant of the map that has it.
PINNED = re.compile(r"^ *ghost (?!use|view|invariant|coded|inverse|Fits|IsSeat)\w+ = .*?;$", re.M | re.S)
ROOMS = ("/specs/inner/", "/specs/laws/")
# The files whose words are for contracts of callers: their lemmas are in proofs/.
FOR_CALLERS = ("ix_atomic/specs/Written.antt", "ix_slottable/specs/KeyIndexes.antt", "ix_slottable/specs/KeyLists.antt")


def contracts(item, lines):
    """Yields the texts that pin an item: its contract, those of the functions in it, and the ghost members of an impl."""
    yield " ".join(item.head)
    if item.kind == "impl":
        yield from PINNED.findall("\n".join(lines[item.first : item.last + 1]))
    for member in item.members:
        if member.kind == "fn" and is_shown(item, member):
            yield " ".join(member.head)


def citations(crate):
    """Yields each word of specs/ that a public contract of the crate cites, with its place and the file that defines it."""
    for module in public_modules(crate, with_hidden=True):
        for path, items in module.items:
            words, lines = words_of(text_of(path)), text_of(path).splitlines()
            for item in items:
                for word in sorted({word for text in contracts(item, lines) for word in WORD.findall(text)} & set(words)):
                    yield f"{path}: {item.name}", word, words[word]


def cited(crate):
    """Yields each inner word that a public contract of the crate cites, with its place."""
    yield from (f"{place} cites {word} of {home}" for place, word, home in citations(crate) if ROOMS[0] in home)


def not_passed_on(crate):
    """Yields each file of a crate below whose words the public contracts of the crate cite, and its callers can't."""
    passed_on = set(re.findall(r"^pub (?:mod|use) (?:[\w.]+\.)?(\w+)$", text_of(f"crates/{crate}/specs/Lib.antt"), re.M))
    for home in sorted({home for _, _, home in citations(crate)}):
        if not any(room in home for room in ROOMS) and re.sub(r".*/|\.antt$", "", home) not in passed_on:
            yield f"crates/{crate}/specs/Lib.antt does not pass on {home}, which a public contract cites"


def used(crate):
    """Yields each file of specs/ outside its rooms that uses an inner file."""
    for path in paths(crate, "specs/**/*.antt"):
        if not any(room in path for room in ROOMS) and re.search(r"^use Rattle\.\w+\.specs\.inner\.", text_of(path), re.M):
            yield f"{path} uses a file of specs/inner/"


def definitions(path):
    """Returns the definitions of a specification, each with its lines; a record has its fields."""
    found, indent = [], ""
    for line in text_of(path).splitlines():
        match = DEFINITION.match(line)
        if match and (not found or len(match.group(1)) <= len(indent) or "record" not in found[-1][1][0]):
            indent = match.group(1)
            found.append((match.group(2), [line]))
        elif found and not line.lstrip().startswith("--"):
            found[-1][1].append(line)
    return found


def words_of_models(crate):
    """Returns the words of the types of models."""
    lines = []
    for path in paths(crate, "src/**/*.rt"):
        models = [it for it in items_of(text_of(path).splitlines()) if trait_of(it.name) == "Model"]
        lines += [line for it in models for name in ("Value", "coded") for line in it.ghosts.get(name, [])]
    return WORD.findall("\n".join(lines))


def parts_of_definitions():
    """Returns the words that the definitions of each name are made of, and each definition as its file and its name."""
    rests_on, homes = {}, []
    for path in (path for crate in LIBRARY for path in paths(crate, "specs/**/*.antt")):
        for word, lines in definitions(path):
            rests_on.setdefault(word, set()).update(WORD.findall("\n".join(lines)))
            homes.append((path, word))
    return rests_on, homes


def reached(left, rests_on):
    """Returns these words, and all words that they rest on."""
    found = set()
    while left:
        found |= left
        left = {lower for word in left for lower in rests_on.get(word, ())} - found
    return found


def words_of_contracts():
    """Returns the words of the public contracts of the library, and of the types of models."""
    found = {word for crate in LIBRARY for word in words_of_models(crate)}
    for path, items in (it for crate in LIBRARY for module in public_modules(crate, with_hidden=True) for it in module.items):
        lines = text_of(path).splitlines()
        found |= {word for item in items for text in contracts(item, lines) for word in WORD.findall(text)}
    return found


def uncited():
    """Yields each definition outside the rooms that no public contract rests on."""
    rests_on, homes = parts_of_definitions()
    used_words = reached(words_of_contracts(), rests_on)
    for path, word in homes:
        if word not in used_words and not any(room in path for room in (*ROOMS, *FOR_CALLERS)):
            yield f"{path}: no public contract rests on {word}, which so is an inner word"


def check():
    """Returns what is wrong."""
    return [*(fault for crate in LIBRARY for fault in (*cited(crate), *not_passed_on(crate), *used(crate))), *uncited()]
