"""What a page of the reference says of one item: its signature, its docs, its errors and conditions, and what it promises."""

import collections
import re
import textwrap

from checks.items import ALIAS, LIBRARY, base_of, extent, facade_of, is_own, is_shown, items_of, paths, printed_texts, public_modules
from checks.items import text_of, title_of, trait_of
from reference.words import Words

WORD = re.compile(r"[^\W\d][\w-]*")
# What an impl of a trait of std says of it. What it says of a trait of the library is what the contracts of that trait cite.
PINNED = re.compile(r"\w+_gives|can_index|items|text|output|debug_output|eq|cmp|hash_input|is_default|is_clone|is_infallible"
                    r"|Item|IntoIter|Error|Err|Output|Target|Elem")
# What an index means by itself: no promise to callers.
INNER = {"Fits", "IsSeat"}
VARIANT = re.compile(r"    (\w+)(?:,| \{|\()")
DERIVED_TEXT = re.compile(r"#\[error\(\"([^\"]*)\"\)\]")
# A name in docs that rustdoc would make a link of, with its path if that is another; or code, in which brackets are its own.
NAME = re.compile(r"\[(`[^`]*`|\w+)\](?:\(([\w:]+)\))?|`[^`]*`")
# Such a name between the passes that make a page and its links.
MARK = re.compile("\0([^\0]*)\0([^\0]*)\0")
# What a call returns of which a sentence of its docs says when.
ERROR = re.compile(r"\b\w*(?:Error|Fault)\b|\b(?:Interfered|Unfinished|VersionsUsedUp)\b|`Err` with|\b(?:as the error|the errors? of|first reason)\b")
CLAUSE = re.compile(r"\s*(requires|ensures)\b")
PARAMETERS = re.compile(r"<(?:[^<>]|<(?:[^<>]|<[^<>]*>)*>)*>$")
MEMBER = re.compile(r"    (?:ghost(?! use)|type|const) (\w+)")
# The calls of a trait that is derived.
DERIVED = {"Clone": "clone", "PartialEq": "eq", "PartialOrd": "partial_cmp", "Ord": "cmp", "Hash": "hash", "Debug": "fmt",
           "Display": "fmt", "Default": "default"}


def file_of(module):
    return title_of(module).replace("::", "-") + ".md"


def heading_of(item):
    """Returns the name of an item in its heading: that of an impl without paths, lifetimes and the parameters of its type."""
    if item.kind != "impl":
        return f"{item.kind} {item.name}"
    trait, of, whole = item.name.rpartition(" for ")
    return re.sub(r"'\w+ |<'\w+>|\b(?:\w+::)+(?=[A-Z])", "", f"{trait}{of}{PARAMETERS.sub('', whole)}")


def anchor_of(heading):
    """Returns what a link to a heading names, if it stands once on its page."""
    return re.sub(r"[^\w\- ]", "", heading.lower()).replace(" ", "-")


def mark(name, path):
    """Returns a name in docs that is to lead to what its path says."""
    return f"\0{name}\0{path}\0"


def prose(docs, owner=""):
    """Returns docs as lines of a page, in which names are marked."""
    def marked(match):
        name, path = match.groups()
        return mark(name, (path or name).strip("`").replace("Self", owner)) if name else match.group()

    return [*(NAME.sub(marked, line) for line in docs), ""] if docs else []


def sentences(text):
    return re.split(r"(?<=\.) (?=[A-Z\0`])", text)


def first_sentence(docs, owner=""):
    """Returns what the table of a page says of an item."""
    lines = prose(docs, owner)
    paragraph = " ".join(lines[: lines.index("")]) if lines else ""
    return sentences(paragraph)[0].replace("|", "\\|")


def paragraphs(lines):
    """Yields the paragraphs of docs, each as its lines."""
    found = []
    for line in [*lines, ""]:
        if line:
            found.append(line)
        elif found:
            yield found
            found = []


def wrapped(words):
    return textwrap.wrap(words, 100, break_long_words=False, break_on_hyphens=False)


def parted(lines):
    """Returns docs without what they say of errors, and that: from the sentence that names one to the end of its paragraph."""
    kept, errors = [], []
    for paragraph in paragraphs(lines):
        parts = sentences(" ".join(paragraph))
        first = next((i for i, it in enumerate(parts) if it.startswith("Returns ") and ERROR.search(it)), None)
        if first is None:
            kept += [*paragraph, ""]
            continue
        errors += [*wrapped(" ".join(parts[first:])), ""]
        kept += [*wrapped(" ".join(parts[:first])), ""] if first else []
    return kept, ["**Errors**", "", *errors] if errors else []


def contract(head):
    """Returns the lines of a function's head in three parts: its signature, what it requires and what it ensures."""
    parts, kind, held = {"": [], "requires": [], "ensures": []}, "", []
    for line in (line for line in head if line != "{}"):
        match = CLAUSE.match(line)
        if match:
            kind = match.group(1)
        elif line.lstrip().startswith("//"):
            held.append(line)
            continue
        parts[kind] += [*held, line]
        held = []
    signature, *clauses = ["\n".join(lines) for lines in parts.values()]
    return [it.splitlines() for it in (signature, *(textwrap.dedent(it).removesuffix(";") for it in clauses))]


def block(title, lines, language="rust"):
    """Returns a block of code under a title, or nothing."""
    return [*([f"**{title}**", ""] if title else []), f"```{language}", *lines, "```", ""] if lines else []


def braced(head, members):
    """Returns the lines of a trait or an impl with some of its members."""
    return [*head[:-1], head[-1] + " {", *members, "}"] if members else head


def shown_members(item):
    return [it for it in item.members if it.kind == "fn" and is_shown(item, it) and not it.is_hidden]


def is_bare(item):
    """Says whether there is nothing to say of an impl but that it is there, and what it pins."""
    return item.kind == "impl" and not item.docs and not shown_members(item)


def derived(item):
    """Returns the traits that a type derives."""
    match = re.match(r"#\[derive\(([^)]*)\)\]", item.head[0]) if item.kind in ("struct", "enum") else None
    return match.group(1).split(", ") if match else []


def calls_in(item):
    """Returns the calls of an impl or of derived traits."""
    if item.kind == "impl":
        return [it.name for it in item.members if it.kind == "fn"]
    return [DERIVED[trait] for trait in derived(item) if trait in DERIVED]


def unheaded(item):
    """Returns the names of what an item has and no heading: the trait of an impl, derived traits, and their calls."""
    if item.kind == "impl" and is_own(item):
        return []
    name = base_of(item.name) if item.kind == "impl" else item.name
    trait, of, whole = item.name.partition(" for ")
    traits = [f"{trait} for {PARAMETERS.sub('', whole)}"] if of else [f"{it} for {name}" for it in derived(item)]
    headed = {it.name for it in shown_members(item)}
    return [*traits, *(f"{name}::{call}" for call in calls_in(item) if call not in headed)]


def members_of_trait(lines, item):
    """Returns the types, constants and ghost members of a trait by name, each with its docs, as its source has them."""
    found, docs, end, i = {}, [], item.last, extent(lines, item.first, "")[0]
    while i < end:
        match = MEMBER.match(lines[i])
        if lines[i].startswith("    ///"):
            docs.append(lines[i])
        elif match:
            last = next(j for j in range(i, end) if lines[j].endswith(";"))
            found[match.group(1)] = [*found.get(match.group(1), []), *docs, *lines[i : last + 1]]
            docs, i = [], last
        elif not lines[i].startswith("    #["):
            docs = []
        i += 1
    return found


class Library:
    """All modules, and what the sections of one page need of other pages."""

    def __init__(self):
        self.modules = [module for crate in LIBRARY for module in public_modules(crate)]
        self.examples = {}
        # The place of each item by its name, and by its crate and its name.
        self.links, self.homes, self.aliases, self.cited, self.rooms = {}, {}, {}, {}, {}
        # The traits that have a ghost member, by its name; the models of types; words of the kit, each with a call that has it.
        self.ghosts, self.models, self.kit_words = collections.defaultdict(list), {}, {}
        self.faults = set()
        self.traits = collections.defaultdict(list)
        for module in self.modules:
            for path, items in module.items:
                for item in items:
                    self.note(module, text_of(path).splitlines(), item)
        self.private = set()
        for crate in LIBRARY:
            for path in paths(crate, "src/**/*.rt"):
                self.note_private(crate, items_of(text_of(path).splitlines()))

    def note(self, module, lines, item):
        """Takes in what other sections say of an item: its place, what it is a name of, the traits that it meets."""
        if item.kind == "impl":
            if trait_of(item.name):
                self.traits[base_of(item.name)].append(trait_of(item.name))
            return
        self.homes[module.crate, item.name] = place = f"{file_of(module)}#{anchor_of(heading_of(item))}"
        self.links.setdefault(item.name, place)
        facade = facade_of(module)
        self.rooms.setdefault(item.name, facade[0].partition("::")[0] if facade else module.crate)
        if item.kind == "trait":
            self.cited[item.name] = set(WORD.findall(" ".join(line for it in item.members for line in it.head)))
            for member in members_of_trait(lines, item):
                self.ghosts[member].append(item.name)
        alias = ALIAS.match(lines[item.first])
        if alias:
            self.aliases[item.name] = alias.group(2)

    def note_private(self, crate, items):
        """Takes in the models of a file's types, and the types that no page has."""
        models = [it for it in items if trait_of(it.name) == "Model" and "Value" in it.ghosts]
        self.models.update(((crate, base_of(it.name)), it.ghosts["Value"]) for it in models)
        self.private.update(it.name for it in items if it.kind in ("struct", "enum", "type") and it.name not in self.links)

    def calls_of(self, name, is_alias):
        """Returns links to the type that a name stands for, and to the traits of its crate, or of its facade, that it meets.

        Another crate can have a type of its own by the name of an alias."""
        target = name
        while is_alias and self.aliases.get(target) in self.links:
            target = self.aliases[target]
        types = [target] if target != name else []
        traits = [it for it in dict.fromkeys(self.traits[target]) if it in self.cited and self.rooms[it] == self.rooms[target]]
        return [self.link(it) for it in types], [self.link(it) for it in traits]

    def link(self, name):
        return f"[`{name}`]({self.links[name]})"

    def is_pinned(self, trait, name):
        """Says whether contracts know of an impl of a trait by a ghost member."""
        return name not in INNER and (name in self.cited[trait] if trait in self.cited else bool(PINNED.fullmatch(name)))

    def pinned(self, item):
        """Returns the lines of what an impl pins, without what names a private type."""
        shown = [it for name, it in item.ghosts.items() if self.is_pinned(trait_of(item.name), name)]
        return [line for lines in shown if not self.private & set(WORD.findall(" ".join(lines))) for line in lines]

    def signature(self, lines, owner, place):
        """Returns the block of a signature, with the trait's name of a private type in its place. Notes a type that has none."""
        for name, of in re.findall(r"\btype (\w+) = (\w+);", " ".join(line for it in owner.ghosts.values() for line in it) if owner else ""):
            if of in self.private:
                lines = [re.sub(rf"\b{of}\b", f"Self::{name}", line) for line in lines]
        found = self.private & set(WORD.findall(" ".join(lines)))
        self.faults.update(f"{place}: the reference has a private type, {name}" for name in found)
        return block("", lines)

    def shown(self, page, names):
        """Returns the example of what the first of these names stands for that has one on a page."""
        bodies = [self.examples[page, name] for name in names if (page, name) in self.examples]
        return block("Example", bodies[0]) if bodies else []


class Source:
    """What the sections of one source file need: its lines, where the words of its clauses are defined, and its module."""

    def __init__(self, path, module, library):
        self.path, self.lines = path, text_of(path).splitlines()
        self.module, self.crate, self.page, self.library = title_of(module), module.crate, file_of(module), library
        self.words = Words(path, self.page, library)

    def calls(self, item):
        """Returns the line that says where the calls of a type stand."""
        if item.kind not in ("struct", "enum", "type"):
            return []
        types, traits = self.library.calls_of(item.name, item.kind == "type")
        parts = [*types, *(["the " + ("trait " if len(traits) == 1 else "traits ") + ", ".join(traits)] if traits else [])]
        return ["It has the calls of " + " and of ".join(parts) + ".", ""] if parts else []

    def model(self, item):
        """Returns the line that names the model of a type."""
        lines = self.library.models.get((self.crate, item.name)) if item.kind == "struct" else None
        return ["Its model in contracts is `" + re.search(r"{ (.*) }", " ".join(lines)).group(1) + "`.", ""] if lines else []

    def printed(self, item, items):
        """Returns the line that says what an error prints."""
        impls = [it for it in items if trait_of(it.name) == "Display" and base_of(it.name) == item.name and not it.docs]
        texts = [text for impl in impls for text in printed_texts(self.lines, impl)]
        texts += DERIVED_TEXT.findall("\n".join(item.head))
        if not texts:
            return []
        quoted = [f"`{it}`" for it in texts]
        return ["`Display` prints " + ", ".join(quoted[:-1]) + (" or " if quoted[1:] else "") + quoted[-1] + ".", ""]

    def variants(self, item):
        """Returns the lines that say how a contract imports the variants of an error."""
        if item.kind != "enum" or not item.name.endswith(("Error", "Fault")):
            return []
        names = [it.group(1) for it in map(VARIANT.match, item.head) if it]
        crate, *path = self.module.split("::")
        place = ".".join(["Rattle", crate, "specs.declared", *path, item.name, "TheVariants"])
        return ["A contract names its variants by:", "", *block("", [f"ghost use {place}.{{{', '.join(names)}}};"], "text")]

    def function(self, item, owner):
        """Returns the lines of a function below its heading. `owner` is the trait or the impl that has it, if one does."""
        signature, conditions, promises = contract(item.head)
        name = owner and (base_of(owner.name) if owner.kind == "impl" else owner.name)
        rust = " ".join([*(owner.head if owner else []), *signature])
        trait = owner.name if owner and owner.kind == "trait" else ""
        docs, errors = parted(prose(item.docs, name or ""))
        place = f"{self.path}: {item.name}"
        return [
            *self.library.signature(signature, owner, place),
            *docs,
            *errors,
            *block("Conditions", conditions),
            *self.library.shown(self.page, [f"{name or self.module}::{item.name}"]),
            *block("Promises", promises),
            *self.words.records([*conditions, *promises]),
            *self.words.line([*conditions, *promises], rust, trait, place),
        ]

    def type_or_trait(self, item, items):
        """Returns the lines of a type, a trait or a constant below its heading, without its calls."""
        members = members_of_trait(self.lines, item) if item.kind == "trait" else {}
        head = [line.removesuffix(" {") for line in self.lines[item.first : extent(self.lines, item.first, "")[0]]] if members else item.head
        ghosts = [line for lines in members.values() for line in lines]
        clauses = [line for line in ghosts if line.startswith(("    ghost", "        "))] or self.library.models.get((self.crate, item.name), [])
        return [
            *block("", braced(head, ghosts)),
            *prose(item.docs, item.name),
            *self.model(item),
            *self.printed(item, items),
            *self.calls(item),
            *self.variants(item),
            *self.library.shown(self.page, [item.name, *unheaded(item)]),
            *self.words.line(clauses, " ".join(item.head if item.kind != "trait" else head), item.name, f"{self.path}: {item.name}"),
        ]

    def implementation(self, item):
        """Returns the lines of an impl below its heading, without its calls."""
        pins = self.library.pinned(item)
        return [
            *block("", braced(item.head, pins)),
            *prose(item.docs, base_of(item.name)),
            *self.library.shown(self.page, unheaded(item)),
            *self.pinned_words(item),
        ]

    def pinned_words(self, item):
        clauses = [line for line in self.library.pinned(item) if not line.startswith("    type ")]
        return self.words.line(clauses, " ".join(item.head), "", f"{self.path}: {item.name}")

    def section(self, item, heading, items):
        """Returns the lines of an item under its heading, and its calls."""
        lines = [f"## {heading}", ""]
        if item.kind == "fn":
            lines += self.function(item, None)
        else:
            lines += self.implementation(item) if item.kind == "impl" else self.type_or_trait(item, items)
        return [*lines, f"[Source](../../{self.path})", "", *self.calls_below(item)]

    def calls_below(self, item):
        """Returns the lines of each call of a trait or an impl, under a heading of its own."""
        return [line for it in shown_members(item) for line in (f"### `{heading_of(it)}`", "", *self.function(it, item))]
