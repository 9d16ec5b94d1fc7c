"""The words of clauses: where a page of the reference says what each of them means.

A word leads to the file of specs/ that defines it, to the type, the constant or the error of the library that it is, or to the trait
whose ghost member it is. A word of the kit's logic has a line in KIT, which docs/api/README.md lists, if the guide's section on
contracts does not explain it. It fails if a clause has a word that none of these explains, and if no clause has a word of KIT.

python3 -m reference.words    prints the words that nothing explains, each with a call that has it
"""

import functools
import os
import re
import textwrap

from checks.items import text_of
from reference.kit import KIT
from crates import ROOT

SECTION = re.compile(r"^## How to read a contract$(.*?)\Z", re.M | re.S)
BLOCK = re.compile(r"^```.*?^```$", re.M | re.S)
USE = re.compile(r"ghost use ([^\s;{]+?)(?:\.\{([^}]*)\}| as (\w+));")
DEFINED = re.compile(r"Rattle\.(ix_\w+)\.specs\.([\w.]+)")
# The items that a crate declares: the variants of an enum, or another item.
DECLARED = re.compile(r"(?:declared|contracts)\.(?:(?:[\w.]+\.)?(\w+)\.TheVariants$|)")
# A name, and what stands behind it after dots; in place of a type by its traits, `⟦<T as Trait>⟧`, that bracket alone.
CHAIN = re.compile(r"(?<![\w.])(⟧|[^\W\d][\w'-]*)((?:\.[\w'-]+)*)")
BOUND = re.compile(r"λ ([^.]*)\.|[({]((?:[\w']+ )+): |\blet (\w+) |(?<!\w)(\w+) = ")
HEAD = re.compile(r"\b(?:requires|ensures\*?)(?: \w+)? \{|\bghost (\w+)(?: =|:) \{")
SYMBOL = re.compile(r"[^\w\s(){}\[\];,.:'\"\\]+")
# A clause that is one word with what it is of.
WHOLE = re.compile(r"\b(?:requires|ensures\*?)(?: \w+)? \{ ([A-Z]\w*) [^×⊎→↔≡{}]*\}")
# A line of a file of definitions that imports definitions of the library.
IMPORTED = re.compile(r"^use Rattle\.(ix_\w+)\.specs\.(?!declared|contracts)([\w.]+)\.\{([^}]*)\}", re.M)
# What a reference has beside the value of its model, and a closure of what it may be called with.
SUFFIXES = {"now", "old", "new", "entry", "exit", "ghost_name", "pre", "post", "row", "the_row"}


@functools.lru_cache(maxsize=None)
def explained_by_guide():
    """Returns the words that the guide's section on contracts explains, symbols too."""
    spans = re.findall(r"`([^`]+)`", BLOCK.sub("", SECTION.search(text_of("docs/GUIDE.md")).group(1)))
    return {word for span in spans for word in [*re.findall(r"[^\W\d][\w-]*", span), *SYMBOL.findall(span)]}


@functools.lru_cache(maxsize=None)
def explained_by_kit():
    """Returns the words that KIT explains."""
    return {word for words, _, _ in KIT for word in words.split()}


def kit_table():
    """Returns the lines of the table of the kit's words."""
    lines = ["| word | meaning |", "|---|---|"]
    for words, shown, meaning in KIT:
        forms = ", ".join(f"`{form}`" for form in (shown or words).split(", "))
        lines.append(f"| {forms} | {meaning} |")
    return lines


def imported(text):
    """Returns the place from which a source file imports each word for its contracts, and the names that it gives to whole places."""
    words, places = {}, {}
    for place, names, alias in USE.findall(text):
        words.update((name.strip(), place) for name in names.split(",") if name.strip())
        if alias:
            places[alias] = place
    return words, places


def code_of(lines):
    """Returns clauses as one text without their heads, comments and texts, and the names of the ghost members that they set."""
    text = " ".join(line for line in lines if not line.lstrip().startswith("//"))
    members = [name for name in HEAD.findall(text) if name]
    return re.sub(r"⟦<.*?>⟧", "⟧", HEAD.sub(" ", re.sub(r'"[^"]*"', " ", text))), members


class Words:
    """What the clauses of one source file may use, for a page of the reference."""

    def __init__(self, path, page, library):
        self.page, self.library = page, library
        self.words, self.places = imported(text_of(path))

    def link(self, word):
        """Returns where the definition of an imported word is, or nothing if the kit has it."""
        match = DEFINED.match({**self.words, **self.places}.get(word, ""))
        if not match:
            return ""
        crate, path = match.groups()
        declared = DECLARED.match(path)
        if declared:
            return self.item(declared.group(1) or (word if word in self.words else path.rpartition(".")[2]), crate)
        path = f"crates/{crate}/specs/{path.replace('.', '/')}.antt"
        return f"../../{path}" if os.path.exists(os.path.join(ROOT, path)) else ""

    def item(self, name, crate=""):
        """Returns where an item of the library stands, seen from this page."""
        place = self.library.homes.get((crate, name)) or self.library.links.get(name, "")
        return place.removeprefix(self.page) if place.startswith(self.page + "#") else place

    def ghost(self, name, near):
        """Returns where the trait stands that has a ghost member: one that is named near by, or the only one, if the kit has none."""
        traits = self.library.ghosts.get(name, ())
        close = [it for it in traits if it in near] or (traits if name not in explained_by_kit() else ())
        return self.item(close[0]) if close else ""

    def found(self, lines, rust, trait):
        """Returns the words of clauses with the place of each, in order, and those that are neither defined here nor local.

        `rust` is the text of the signatures around, which says what types and parameters there are.
        """
        code, members = code_of(lines)
        ghosts, near = self.library.ghosts, {"Self", "self", *re.findall(r"\w+", rust)}
        local = {word for parts in BOUND.findall(code) for part in parts for word in part.split()} | set(re.findall(r"(\w+): ", rust))
        places, left = {}, [*SYMBOL.findall(code), *(it for it in members if it not in ghosts)]
        for head, chain in CHAIN.findall(code):
            names, is_type = chain.split(".")[1:], head == "⟧" or head[0].isupper()
            if head not in local:
                link = self.link(head) or (self.item(trait) if trait in ghosts.get(head, ()) else "")
                link = link or (self.item(head) if head not in near | {*self.words, *self.places} else "")
                places.update({head: link} if link else {})
                left += [head] if not link and head not in self.places and (head in self.words or head not in near) else []
            for name in names:
                if is_type and (self.ghost(name, near) or name in self.library.cited):
                    places[name] = self.ghost(name, near) or self.item(name)
                    break
                if name in SUFFIXES or is_type and name not in near or head in {*self.places} - local - {*places}:
                    left.append(name)
        return places, left

    def line(self, lines, rust, trait="", place=""):
        """Returns the line of a page that says where the words of clauses are defined. Notes the others, which the kit has."""
        places, left = self.found(lines, rust, trait)
        for word in left:
            self.library.kit_words.setdefault(word, place)
        for name, link, record in self.whole(lines):
            places.update(words_of_record(record, link))
        return ["Words: " + ", ".join(f"[`{word}`]({link})" for word, link in places.items()) + ".", ""] if places else []

    def records(self, lines):
        """Returns the records that whole clauses are, each with its fields: those of the calls that promise alike."""
        found = []
        for name, _, record in self.whole(lines):
            found += [f"**`{name}`**", "", "```antt", *record.split("\n"), "```", ""]
        return found

    def whole(self, lines):
        """Yields the name of each record that is a whole clause, the link to its file, and its text."""
        for name in dict.fromkeys(WHOLE.findall(" ".join(lines))):
            link = self.link(name)
            text = text_of(link.removeprefix("../../")) if link.endswith(".antt") else ""
            record = re.search(rf"^( *)pub record {name} .*\n(?:\1 +.*\n)*", text, re.M)
            if record:
                yield name, link, textwrap.dedent(record.group()).replace("pub ", "").rstrip("\n")


def words_of_record(record, link):
    """Returns the words in the fields of a record that the library defines, each with the link to its file: the file of the record, or a file
    from which that one imports the word."""
    text = text_of(link.removeprefix("../../"))
    homes = {name: link for name in re.findall(r"^ *(?:abbrev pub|pub record) (\w+)", text, re.M)}
    for crate, path, names in IMPORTED.findall(text):
        homes.update((name.strip(), f"../../crates/{crate}/specs/{path.replace('.', '/')}.antt") for name in names.split(","))
    fields = re.sub(r"--.*|^ *\w+ :", "", record.partition("\n")[2], flags=re.M)
    return {word: homes[word] for word in re.findall(r"(?<![\w.])[^\W\d][\w-]*", fields) if word in homes}


def explained():
    """Returns the words that are no one's of the library, and explained."""
    return explained_by_kit() | explained_by_guide()


def faults(used):
    """Yields what is wrong with the words of all clauses, each with a place that has it."""
    yield from (f"{place}: nothing explains the word {word}: KIT in reference/kit.py" for word, place in used.items() if word not in explained())
    yield from (f"reference/kit.py explains {word}, which no clause has" for word in sorted(explained_by_kit() - set(used)))


def main():
    from reference.api import first_pass

    print("\n".join(faults(first_pass()[0].kit_words)))


if __name__ == "__main__":
    main()
