"""The reference in docs/api/: a page for each public module, from the sources of the library's crates.

A page begins with the module's main type, if it has one, and its calls by task. Then come the lines that import the items, a line on each
item, the traits of its types, and each item with its signature, docs, errors, conditions, examples and promises, and where the words
of its contract are defined; behind them what proofs and containers of one's own need. docs/api/README.md lists all pages,
and most items and calls.

It fails if a page is another than the sources make, if docs would be lost, if an example names a call that is not there, if a facade
does not pass on all that a module has, if a signature has a private type, if a link leads nowhere or a heading is long, if nothing
explains a word of a clause, and if a lemma of docs/api/lemmas.md is not there. let_through plants what has to be refused.
"""

import collections
import glob
import os
import re

from crates import ROOT, write_text
from reference import lemmas, words
from reference.examples import assigned
from reference.index import INDEX, Places, headings_on
from checks.items import LIBRARY, base_of, exported_names, facade_of, items_of, paths, text_of, title_of, trait_of
from reference.layout import docs_of, is_later, kinds_of, layouts
from reference.sections import Library, Source, anchor_of, block, derived, file_of, first_sentence, is_bare, prose, shown_members, unheaded, wrapped

PAGES = os.path.join(ROOT, "docs", "api")
LATER_HEADING = "## For proofs, and for containers of your own"
TRAITS = ("Copy", "Clone", "PartialEq", "Eq", "PartialOrd", "Ord", "Hash", "Debug", "Display", "Error", "Default")
LONGEST = 80
# Traits of an impl that say nothing to a caller.
HIDDEN = {"Model", "Move", "Owns"}


def crate_of(file):
    """Returns the crate of a page."""
    return file.removesuffix(".md").partition("-")[0]


def use_lines(path, names):
    """Returns the lines that import names from a module."""
    if not names:
        return []
    line = f"use {path}::{{{', '.join(sorted(names))}}};" if len(names) > 1 else f"use {path}::{next(iter(names))};"
    if len(line) <= 100:
        return [line]
    return [f"use {path}::{{", *(f"    {it}" for it in wrapped(", ".join(sorted(names)) + ",")), "};"]


def imports(module, items):
    """Returns the lines that import the items of a module: from the crate where it passes them on."""
    names = {item.name for item in items if item.kind != "impl"}
    passed_on = names & exported_names(text_of(f"crates/{module.crate}/src/lib.rt")) if module.name else names
    return block("", use_lines(module.crate, passed_on) + use_lines(title_of(module), names - passed_on))


def traits_of(layout):
    """Returns the traits of each type of a page by its name, each with the anchor of the impl that says more of it."""
    found = {it.name: dict.fromkeys(derived(it), "") for it in layout.items() if it.kind in ("struct", "enum", "type") and not is_later(it)}
    for item in layout.items():
        name, trait = base_of(item.name), trait_of(item.name)
        if item.kind == "impl" and trait and name in found and trait not in HIDDEN and not is_later(item):
            reference = re.search(r" for (&(?:'\w+ )?(?:mut )?)", item.name)
            by = re.sub(r"'\w+ ", "", reference.group(1)).strip() if reference else ""
            found[name].setdefault(f"`{trait}` of `{by}`" if by else f"`{trait}`", "" if is_bare(item) else layout.heading(item))
    return {name: {it if "`" in it else f"`{it}`": heading for it, heading in traits.items()} for name, traits in found.items() if traits}


def trait_table(layout, links):
    """Returns the lines of the table of traits."""
    found = traits_of(layout)
    if not found:
        return []
    lines = ["## Traits", "", "A type that is a name of another one has its traits too.", "", "| type | traits |", "|---|---|"]
    for name, traits in found.items():
        ordered = sorted(traits, key=lambda it: (TRAITS.index(it.strip("`")) if it.strip("`") in TRAITS else len(TRAITS), it.replace("`", "")))
        cells = [f"[{it}]({links[traits[it]]})" if traits[it] in links else it for it in ordered]
        lines.append(f"| `{name}` | {', '.join(cells)} |")
    return [*lines, ""]


def item_table(layout):
    """Returns the lines of the table of items, without the main one."""
    lines = ["| item | |", "|---|---|"]
    for item in (it for it in layout.items() if it.kind != "impl" and it is not layout.main):
        lines.append(f"| [`{item.name}`](#{anchor_of(layout.heading(item))}) | {first_sentence(item.docs)} |")
    return [*lines, ""] if lines[2:] else []


def others(items, library):
    """Returns the lines of impls of which there is little to say. `items` has each with its source."""
    if not items:
        return []
    bare, links = [], []
    for source, item in items:
        lines = [*item.head[:-1], item.head[-1] + " {", *library.pinned(item), "}"] if library.pinned(item) else item.head
        bare += ["", *lines] if bare and len(lines) > 1 else lines
        links += [it for it in source.pinned_words(item) if it]
    shown = library.shown(items[0][0].page, [name for _, item in items for name in unheaded(item)])
    return ["## Other implementations", "", *block("", bare), *joined(links), *shown]


def joined(lines):
    """Returns several lines of words as one."""
    links = [link for line in lines for link in line.removeprefix("Words: ").removesuffix(".").split(", ")]
    return ["Words: " + ", ".join(dict.fromkeys(links)) + ".", ""] if links else []


def first_screen(layout, source_of, library):
    """Returns the lines of the main type and of the table of calls."""
    if not layout.main:
        return []
    path, main, items = next(it for it in layout.entries if it[1] is layout.main)
    of = library.mains[layout.main.name if layout.main.kind != "type" else library.aliases[layout.main.name]]
    return [
        f"## {layout.heading(main)}", "", *source_of(path).type_or_trait(main, items), f"[Source](../../{path})", "",
        "## Calls", "", *of.table(kinds_of(library, {of.main.name}), of.module is layout.module),
    ]


def page(layout, library, links):
    """Returns the text of a module's page, with marks in place of the links of names."""
    sources = {path: Source(path, layout.module, library) for path, _, _ in layout.entries}
    first = first_screen(layout, sources.get, library)
    lines = [f"# {title_of(layout.module)}", "", *prose(docs_of(layout.module.path)), *first, *(["## Items", ""] if first else [])]
    lines += [*imports(layout.module, layout.items()), *item_table(layout), *trait_table(layout, links)]
    sections = {False: [], True: []}
    for path, item, items in layout.entries:
        if item is layout.main:
            below = sources[path].calls_below(item)
            sections[False] += [f"## {layout.heading_of_calls(item.name, item)}", "", *below] if below else []
        elif not is_bare(item):
            sections[is_later(item)] += sources[path].section(item, layout.heading(item), items)
    bare = [(sources[path], item) for path, item, _ in layout.entries if is_bare(item)]
    lines += [*sections[False], *others(bare, library), *([LATER_HEADING, ""] if sections[True] else []), *sections[True]]
    return "\n".join(lines).rstrip("\n") + "\n"


# What stands once on a page.
TITLE = re.compile(r"\*\*(Example|`\w+`)\*\*")


def examples_once(text):
    """Returns a page's text with the place of an example, or of a record, where it stands there a second time."""
    found, seen, heading = [], {}, ""
    links = [f"[{title}]({link})" for _, title, link in headings_on(text, "")]
    lines = text.splitlines()
    while lines:
        line = lines.pop(0)
        if line.startswith("#"):
            heading = links.pop(0)
        elif line.startswith("```"):
            end = lines.index("```") + 1
            code, lines = lines[:end], lines[end:]
            if found[-1:] == [""] and TITLE.fullmatch(found[-2]):
                first = seen.setdefault("\n".join(code), heading)
                if first != heading:
                    found[-2:] = [f"{found[-2]}: that of {first}."]
                    continue
            found += [line, *code]
            continue
        found.append(line)
    return "\n".join(found) + "\n"


def first_pass():
    """Returns the library and the places of all that its pages have."""
    library = Library()
    library.layouts, library.mains = layouts(library)
    texts = {file: page(layout, library, {}) for file, layout in library.layouts.items()}
    return library, Places(library.layouts, texts, library), texts


def known_names(places):
    """Returns the pages of each name that an example can show, and the types that only one page has, by pages of one crate."""
    known = collections.defaultdict(list)
    for file, names in places.names.items():
        for name in names:
            known[name].append(file)
    pages = collections.Counter(name for names in places.types.values() for name in names)
    types = collections.defaultdict(set)
    for file, names in places.types.items():
        types[crate_of(file)].update(name for name in names if pages[name] == 1)
    return known, {file: types[crate_of(file)] for file in places.types}


def wanted_names(module, library):
    """Yields the names of all that is to have an example: types and traits, and each call that has a heading.

    A call has its own name, and that of the trait of an impl which shows it too.
    """
    for item in (item for _, items in module.items for item in items):
        owner = base_of(item.name) if item.kind == "impl" else item.name
        if item.kind == "fn":
            yield [f"{title_of(module)}::{item.name}"]
        if item.kind in ("struct", "trait", "type") and not is_later(item) and "Error" not in library.traits[item.name]:
            yield [item.name]
        for member in shown_members(item):
            yield [f"{owner}::{member.name}", *(unheaded(item)[:1] if item.kind == "impl" else [])]


def pages_with_names():
    """Returns what examples can name, and the names of all that is to have one, each behind its page."""
    library, places, _ = first_pass()
    wanted = [(file_of(module), names) for module in library.modules for names in wanted_names(module, library)]
    return *known_names(places), wanted


def made():
    """Returns the text of each page by its file, and what is wrong with the examples, the facades and the words of clauses."""
    library, places, texts = first_pass()
    library.examples, faults = assigned(*known_names(places))
    for file, layout in library.layouts.items():
        links = {heading: link for _, heading, link in reversed(list(headings_on(texts[file], "")))}
        texts[file] = places.linked(examples_once(page(layout, library, links)), file)
    texts[INDEX], texts[lemmas.PAGE] = places.index(), places.linked(lemmas.page(library), lemmas.PAGE)
    wrong = [*not_passed_on(library.modules), *let_through(library), *sorted(library.faults), *words.faults(library.kit_words)]
    return texts, [*faults, *wrong, *lemmas.faults(library), *lost_links(texts)]


def lost_links(texts):
    """Yields each link from a page to a page or a heading that there is not, and each heading that is long or stands there twice."""
    for file, text in texts.items():
        names = [heading for level, heading, _ in headings_on(text, file) if level == 2]
        yield from (f"docs/api/{file}: the heading {it} is long, or there twice" for it in names if len(it) > LONGEST or names.count(it) > 1)
    anchors = {file: {link.partition("#")[2] for _, _, link in headings_on(text, file)} for file, text in texts.items()}
    for file, text in texts.items():
        for page_of, anchor in set(re.findall(r"\]\(([\w-]*\.md|)#([^)]*)\)", text)):
            if anchor not in anchors.get(page_of or file, ()):
                yield f"docs/api/{file}: {page_of or 'it'} has no heading {anchor}"


def let_through(library):
    """Yields each planted fault of which nothing is said."""
    words_of_queues = words.Words("crates/ix_queue/src/queue/get.rt", "ix_queue-queue.md", library)
    for clause in ("ensures { IsQueue self.now }", "ensures { result ≡ T.qwert self.now }", "ensures { self.new ⊕ result }"):
        if not set(words_of_queues.found([clause], "fn get<T>(&self)", "")[1]) - words.explained():
            yield f"nothing is said of a word of {clause}"
    private = next(iter(sorted(library.private)))
    if library.signature([f"fn of(it: {private})"], None, "a plant") and not any("a plant" in it for it in library.faults):
        yield f"nothing is said of the private type {private}"
    library.faults = {it for it in library.faults if "a plant" not in it}
    if not any(lost_links({"a.md": "[b](#c)"})) or not any(lost_links({"a.md": "## b\n## b"})):
        yield "nothing is said of a lost link, or of a heading that stands there twice"


def lost_docs():
    """Yields each place where docs stand above a line that is no item, or have what a page does not show."""
    for crate in LIBRARY:
        for path in paths(crate, "src/**/*.rt"):
            lost, lines = [], text_of(path).splitlines()
            items_of(lines, lost=lost)
            yield from (f"{path}:{line}: the docs above this line are of no item" for line in lost)
            blocks = [i for i, line in enumerate(lines, 1) if line.lstrip().startswith(("/// ```", "//! ```"))]
            yield from (f"{path}:{line}: nothing checks a block of code in docs: an example is a test, below `// Shows:`" for line in blocks)


def not_passed_on(modules):
    """Yields each name of a module or of its crate that the facade which passes them on does not have."""
    for module, facade in ((it, facade_of(it)) for it in modules if facade_of(it)):
        path, names = facade
        above = path.partition("::")[0]
        root, passed_on = (exported_names(text_of(f"crates/{crate}/src/lib.rt")) for crate in (module.crate, above))
        lost = [(path, module.exported - names if names is not None else ()), (above, root - passed_on)]
        yield from (f"{place} does not pass on {name} of {title_of(module)}" for place, left in lost for name in sorted(left))


def old_pages():
    return {os.path.basename(path) for path in glob.glob(os.path.join(PAGES, "*.md"))}


def check():
    """Returns what is wrong."""
    (texts, faults), old = made(), old_pages()
    differing = (old ^ set(texts)) | {name for name in old & set(texts) if text_of(f"docs/api/{name}") != texts[name]}
    return [*faults, *lost_docs(), *(f"docs/api/{name}: it is another than the sources make" for name in sorted(differing))]


def write():
    (texts, _), old = made(), old_pages()
    os.makedirs(PAGES, exist_ok=True)
    for name in old - set(texts):
        os.remove(os.path.join(PAGES, name))
    for name, text in texts.items():
        write_text(f"docs/api/{name}", text)
