"""Where each item and each call of the reference stands, and its first page: all modules, all calls and the words of the kit.

The table of calls has those of types, traits and modules, and those of std's traits for containers and their like; what errors,
iterators, keys and commands have of std's traits is on their pages.
"""

import collections
import re

from checks.items import base_of, facade_of, is_own, title_of, trait_of
from reference.layout import docs_of, is_later, kinds_of
from reference.sections import MARK, anchor_of, first_sentence, heading_of, is_bare, shown_members, unheaded
from reference.words import kit_table

INDEX = "README.md"
INTRODUCTION = """# Reference

This reference lists the public items of each module, each with its contract. `.ci/check --write` makes it from the sources. The
[guide](../GUIDE.md#how-to-read-a-contract) explains how to read a contract. [CHOOSING.md](../CHOOSING.md) helps you to choose a
container and a method.

Each page begins with the main type of its module, and with a table of its methods by task. Each method has these parts:

- its signature and its docs;
- "Errors": when the method returns an error;
- "Conditions": what must be true when you call the method;
- "Promises": what is true when the method returns;
- "Words": where the words of the conditions and promises are defined. The words of the kit are [below](#words-of-contracts);
- "Example": the body of a test. The test is passed `rt`, the machine. In a program you must use a `Result`, by `?`, `match` or
  `let _ = ..`.

If several methods of a page have the same example or the same record of promises, the page shows it at the first of them.

A line `impl<..>` shows the bounds of the methods below it. `T: Drop` says that a value of `T` may be dropped. A type is `Drop` if it is
`Copy`, derives `Drop`, or implements `Drop`. The `ghost` members of an impl are the facts that contracts use about the type. A type is
`Send` or `Sync` if all of its parts are: its elements, its allocator, its closures. A type that has a `&T` is `Send` if `T` is `Sync`.

[Lemmas](lemmas.md) has laws and lemmas for your own proofs.

## Modules

If a module has a path in the column "also", all of its items are re-exported there.
"""


def headings_on(text, file):
    """Yields each heading of a page: its level, its text, and a link to it."""
    seen, is_code = collections.Counter(), False
    for line in text.splitlines():
        is_code ^= line.startswith("```")
        match = None if is_code else re.fullmatch(r"(#+) (.*)", line)
        if match:
            anchor = anchor_of(match.group(2))
            yield len(match.group(1)), match.group(2), f"{file}#{anchor}" + (f"-{seen[anchor]}" if seen[anchor] else "")
            seen[anchor] += 1


def calls_on(text, file):
    """Yields each call of a page: its name, the type or trait that has it, or none, its link, and the heading above it."""
    owner, above = None, ""
    for level, heading, link in headings_on(text, file):
        words = re.match(r"`(fn |trait )?(\w+)", heading)
        if level == 2:
            above = heading
            owner = words and (base_of(heading.strip("`")) if " for " in heading else words.group(2))
            if words and words.group(1) == "fn ":
                yield words.group(2), None, link, above
        elif level == 3 and owner:
            yield words.group(2), owner, link, above


class Places:
    """Where each item and each call stands: for the links of names in docs, for the index and for examples."""

    def __init__(self, layouts, texts, library):
        self.library, self.layouts = library, layouts
        # By owner and call: those with a heading, and others. By name: items.
        self.headed, self.others, self.items = (collections.defaultdict(list) for _ in range(3))
        # By page: what examples can name, and its types.
        self.names, self.types = {}, {}
        self.listed = collections.defaultdict(list)
        self.mains = kinds_of(library, {layout.main.name for layout in layouts.values() if layout.main})
        for file, layout in layouts.items():
            self.note(layout, texts[file])

    def note(self, layout, text):
        """Takes in the calls and the items of a page."""
        file, items = layout.file, layout.items()
        self.items[layout.module.name.rpartition("::")[2]].append(file)
        headed = list(calls_on(text, file))
        for call, owner, link, above in headed:
            self.headed[owner, call].append(link)
            self.list_call(owner or title_of(layout.module), call, link, above.partition(" for ")[0].strip("`") if " for " in above else "")
        self.types[file] = {item.name for item in items if item.kind not in ("impl", "fn", "const")}
        self.names[file] = {f"{owner or title_of(layout.module)}::{call}" for call, owner, _, _ in headed} | self.types[file]
        links = {heading: link for _, heading, link in reversed(list(headings_on(text, file)))}
        for item in items:
            self.names[file].update(unheaded(item))
            link = links["Other implementations" if is_bare(item) else layout.heading(item)]
            self.note_unheaded(item, link)
            if item.kind != "impl":
                self.items[item.name].append(link)

    def note_unheaded(self, item, link):
        """Takes in the calls of an item that have no heading: those of derived traits, and of impls that add nothing to theirs."""
        for owner, call in (name.split("::", 1) for name in unheaded(item) if re.fullmatch(r"\w+::\w+", name)):
            if link not in self.others[owner, call]:
                self.others[owner, call].append(link)
                self.list_call(owner, call, link, trait_of(item.name) if item.kind == "impl" else "derived")

    def list_call(self, owner, call, link, trait):
        """Puts a call into the table of the first page: one of a trait only of the traits of std, and of containers."""
        trait = trait_of(f"{trait} for x")
        if not trait or owner in self.mains and trait not in self.library.cited and trait != "Drop":
            if not any(name == owner for name, _ in self.listed[call]):
                self.listed[call].append((owner, link))

    def place(self, target, file):
        """Returns where a name in the docs of a page leads to, if that is one place."""
        owner, _, name = ("::" + target).rpartition("::")
        owner = owner.rpartition("::")[2]
        item = owner if owner[:1].isupper() else name
        for links in (self.headed.get((owner, name)), self.others.get((owner, name)), self.items.get(item), self.headed.get((None, name))):
            near = [it for it in links or () if it.startswith(file + "#")]
            if near or links and len(links) == 1:
                return (near or links)[0].removeprefix(file if near else "")
        return ""

    def linked(self, text, file):
        """Returns a page's text with each mark as a link, or as the name alone."""
        def link(match):
            name, place = match.group(1), self.place(match.group(2), file)
            name = name if "`" in name else f"`{name}`"
            return f"[{name}]({place})" if place else name

        return MARK.sub(link, text)

    def index(self):
        """Returns the text of the first page."""
        lines = [INTRODUCTION, "| module | also | | items |", "|---|---|---|---|"]
        for file, layout in self.layouts.items():
            names = ", ".join(f"`{item.name}`" for _, items in layout.module.items for item in items if item.kind != "impl" and not is_later(item))
            facade = facade_of(layout.module)
            also, title = f"`{facade[0]}`" if facade else "", title_of(layout.module)
            lines.append(f"| [`{title}`]({file}) | {also} | {first_sentence(docs_of(layout.module.path))} | {names} |")
        lines += ["", "## Calls", "", "This table lists the methods and functions of all types, traits and modules. It has the methods of std's traits for containers and similar types."]
        lines += ["Each page lists the other impls of std's traits in its table of traits.", "", "| method or function | of |", "|---|---|"]
        for call, owners in sorted(self.listed.items()):
            lines.append(f"| `{call}` | {', '.join(f'[`{name}`]({link})' for name, link in owners)} |")
        lines += ["", "## Words of contracts", "", "These words of the kit's logic stand in clauses. The guide explains the most frequent ones, which are not repeated here.", "", *kit_table()]
        return self.linked("\n".join(lines) + "\n", INDEX)
