"""The order of a page of the reference: its main type or trait first, then the table of its calls by task, and iterators last.

The main one has the most calls and impls, if it has many, or else is the first one with calls that the module's docs name; where a
module only gives other names to the main type of another one, as that of flat maps, the first of these names is. Calls of the main type and its kinds are grouped by what they do. Those of another type,
and several of another file, are a group with that file's title: the first sentence of its docs, up to a colon.
"""

import collections
import re

from checks.items import base_of, is_own, text_of, title_of, trait_of
from reference.sections import file_of, first_sentence, heading_of, is_bare, mark, shown_members

MAIN_CALLS = 6
# So many calls of the main type are one group, and fewer than so many in another file are none.
GROUP, FEW = 8, 3
# What proofs and containers of one's own need, and no other caller.
LATER = re.compile(r"\w+_law|\w+Family|\w*Link|Content|Hashed|HeapStringKind|Keyed|Pair(?:Key|Value)?|Part|Polymorphic|RawSlots|Relocatable|Whole")
TYPES = ("struct", "enum", "trait", "type")
RECEIVER = re.compile(r"\(\s*(&(?:'\w+ )?(?:mut )?|mut )?self\b")
TASKS = ("Creating", "Reading", "Changing", "Consuming", "Counting touches")


def docs_of(path):
    """Returns the docs at the head of a file."""
    return [line[4:] for line in text_of(path).splitlines() if line.startswith("//!")]


def is_later(item):
    """Says whether an item stands behind the others."""
    names = (base_of(item.name), trait_of(item.name)) if item.kind == "impl" else (item.name,)
    return any(LATER.fullmatch(name) for name in names)


def main_name(items, docs):
    """Returns the name of the type or trait with the most calls and impls, if it has many calls, or else the one that docs name first."""
    calls, impls = collections.Counter(), collections.Counter()
    for item in (it for it in items if not is_later(it)):
        if item.kind == "trait" or item.kind == "impl" and is_own(item):
            calls[item.name if item.kind == "trait" else base_of(item.name)] += len(shown_members(item))
        elif item.kind == "impl":
            impls[trait_of(item.name)] += 1
    name = max(calls, key=lambda it: calls[it] + impls[it], default="")
    return name if calls[name] >= MAIN_CALLS else next((it for it in re.findall(r"\[`(\w+)`\]", docs) if calls[it]), "")


def task_of(call):
    """Returns what a call does: it makes a value, or does something with the one that it is called on."""
    head, docs = " ".join(call.head), " ".join(call.docs)
    if "touches: &mut Touches" in head:
        return "Counting touches"
    receiver = RECEIVER.search(head)
    if docs.startswith("Creates ") or not receiver and not docs.startswith("Returns "):
        return "Creating"
    by = receiver.group(1) or "" if receiver else "&"
    return "Changing" if "&" in by and "mut" in by or docs.startswith("Writes ") else "Reading" if "&" in by else "Consuming"


class Layout:
    """The items of a page in their order, each with its file and its heading, and the main one."""

    def __init__(self, module, mains=None, aliases=None):
        self.module, self.file = module, file_of(module)
        everything = [item for _, items in module.items for item in items]
        name = main_name(everything, " ".join(docs_of(module.path)))
        if not name and mains:
            name = next((it.name for it in everything if it.kind == "type" and aliases.get(it.name) in mains), "")
        self.main = next((it for it in everything if it.kind in TYPES and it.name == name), None)
        self.files = sorted(module.items, key=self.rank)
        entries = [(path, item, items) for path, items in self.files for item in items]
        self.entries = [it for it in entries if not is_later(it[1])] + [it for it in entries if is_later(it[1])]
        self.headings = dict(zip(map(lambda it: id(it[1]), self.entries), self.made_headings()))

    def rank(self, entry):
        """Returns where the items of a file stand: those of the main type first, iterators last. Without a main type, impls are last."""
        items, main = entry[1], self.main.name if self.main else None
        if not main:
            return all(item.kind == "impl" for item in items)
        if any(item is self.main for item in items):
            return 0
        if all(item.kind == "impl" and base_of(item.name) == main for item in items):
            return 1
        return 3 if any(trait_of(item.name) == "Iterator" for item in items) else 2

    def made_headings(self):
        """Yields the heading of each item. Those of the calls of a type name the first and the last one."""
        names = collections.Counter(heading_of(item) for _, item, _ in self.entries if not is_bare(item))
        for _, item, _ in self.entries:
            heading = heading_of(item)
            if item.kind == "impl" and is_own(item):
                yield self.heading_of_calls(heading, item)
            else:
                yield f"`{item.name}`" if item.kind == "impl" and names[heading] > 1 else f"`{heading}`"

    def heading_of_calls(self, name, item):
        calls = [it.name for it in shown_members(item)]
        return f"`{name}`: `{calls[0]}`" + (f" to `{calls[-1]}`" if calls[1:] else "")

    def heading(self, item):
        return self.headings[id(item)]

    def items(self):
        return [item for _, item, _ in self.entries]

    def groups(self, kinds):
        """Returns the groups of calls: the title of each, and its calls with their owners, where they have one."""
        own, others = {}, []
        for path, items in self.files:
            calls = [it for item in items if not is_later(item) for it in owned_calls(item)]
            made = [it for it in calls if it[0] in kinds and task_of(it[1]) == TASKS[0]]
            rest = [it for it in calls if it not in made]
            is_long = any(item is self.main for item in items) and len(rest) > GROUP and "Changing" in [task_of(call) for _, call in rest]
            if is_long or len(rest) < FEW and all(owner in kinds for owner, _ in rest):
                made, rest = calls, []
            for it in made:
                own.setdefault(task_of(it[1]), []).append(it)
            others += [(first_sentence(docs_of(path)).partition(":")[0].rstrip("."), rest)] if rest else []
        own.get(TASKS[0], []).sort(key=lambda it: not it[1].name.startswith("new"))
        return [*((task, own[task]) for task in TASKS if task in own), *others]

    def table(self, kinds, others=True):
        """Returns the lines of the table of calls, of which those of the main type are named without it; those of others are left out
        where they have no place."""
        lines = []
        for title, calls in (it for it in self.groups(kinds) if others or it[1][0][0] in kinds):
            lines += [f"### {title}", "", "| call | |", "|---|---|"]
            for owner, call in calls:
                shown = call.name if owner in ("", self.main.name) else f"{owner}::{call.name}"
                place = f"{owner or title_of(self.module)}::{call.name}"
                lines.append(f"| {mark(f'`{shown}`', place)} | {first_sentence(call.docs, owner)} |")
            lines.append("")
        return lines


def owned_calls(item):
    """Yields the calls that are a type's or a trait's own, with its name, and a function."""
    if item.kind == "fn":
        yield "", item
    elif item.kind == "trait" or item.kind == "impl" and is_own(item):
        yield from ((item.name if item.kind == "trait" else base_of(item.name), call) for call in shown_members(item))


def kinds_of(library, names):
    """Returns the types that have the calls of one of these: themselves, what has such a trait, and other names of all these."""
    found = {name for name, traits in library.traits.items() if names & set(traits)} | names
    for name in library.aliases:
        target = name
        while target not in found and target in library.aliases:
            target = library.aliases[target]
        found |= {name} if target in found else set()
    return found


def layouts(library):
    """Returns the layout of each page by its file, and that of each main type by its name."""
    mains = {layout.main.name: layout for layout in map(Layout, library.modules) if layout.main}
    return {file_of(module): Layout(module, mains, library.aliases) for module in library.modules}, mains
