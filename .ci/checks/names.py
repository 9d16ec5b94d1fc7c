"""Looks up what README.md, CHANGELOG.md and docs/*.md name, and fails if something is not there.

- A file or a folder in backticks is one, from the root or as the end of a path; a link leads to a page and to a heading of it.
- Each word in backticks stands in the code, or in WORDS or UPSTREAM. `Type::call` is a member of the type.
- A clause behind its calls, as in `push` (`full`), or before them, as in `full` of `push`, is one of theirs. In a section about
  crates, each word in the last column of a table is a clause there, a call or a definition.
- No page states how many mutants, tests or scripts there are: scripts count them.
- docs/EXAMPLES.md names each file of the crate of examples.

The first column of FOREIGN has names of other crates, which are not looked up.
"""

import os
import re

from checks.clauses import Contracts
from crates import ROOT, libraries_of_crates
from checks.items import paths, text_of
from checks.pages import DOCUMENTS, FILES, headings, is_file, is_path, paragraphs

# Words that the code does not have: of Rust, its std and its crates, of the kit, what stands for a name of the reader's, and what
# was removed.
WORDS = set("""
    AtomicCell Deref MaybeUninit Mutex SecondaryMap SendError memmove no_std python3 replace_with rustc scope slab xmllint
    Handles Wait allow anew axioms build dac8208d650f15bf holes incremental lemma libc statements trusted
    _counted CRATE FILE FUNCTION MODULE REV SUBJECT WHAT_IT_DOES_WRONG my_program
    inline_len
    BoundedMap bounded_map CopyIn CopyInline FlatCompared SlotState flat_insert slot_insert IsCapacity LinkTable full state state_with_pair with_pair
""".split())
# Words of upstream that this library does not have.
UPSTREAM = set("""
    OwningIter RelocatableIter SemanticString SemanticStringAccessor StringMemoryLayoutMetrics StringView VectorView
    VectorMemoryLayoutMetrics __internal_ __internal_insert _unchecked as_bytes_with_nul as_c_str const_memory_size memory_size
    placement_default
""".split())
FOREIGN = "docs/NAMES.md"
CODE = {".antt": r"--.*", ".rt": r"//.*", ".rs": r"//.*", ".unproved": r"//.*", ".c": r"//.*", ".py": r"(?s:\"\"\".*?\"\"\")|(?m:#.*$)"}
WORD = re.compile(r"[^\W\d]\w*")
SPAN = re.compile(r"`([^`]+)`")
LINK = re.compile(r"\]\(([^()\s#]*)#?([^()\s]*)\)")
MEMBER = re.compile(r"\b([A-Z]\w*)(?:::<[^>]*>)?::(\w+)")
CALL = re.compile(r"&?(\w+(?:::\w+)*)(?:<.*>)?(?:\(.*\))?$", re.S)
CLAUSE = re.compile(r"(?!true$|false$)[a-z]\w*$")
TOKEN = re.compile(r"\([^()]*\)|`[^`]+`|[;.|]")
NAMES = r"`\w+`(?:(?:,| and|, and)\s+`\w+`)*"
OF = re.compile(rf"(`,\s+)?({NAMES})\s+of\s+(?:the\s+)?((?:`[^`]+`(?:,| and|, and)\s+)*?`[^`]+`)(?!\w|\s+of\b|(?:,| and)\s+`[^`]+`(?!\s+of\b))")
COUNT = re.compile(r"\b\d[\d,]*\s+(?:mutants|must-fail edits|edits|tests|scripts|functions|public functions)\b")

CRATES = libraries_of_crates()
CONTRACTS = Contracts()


def code_words():
    """Returns the words of the code without its comments, and of the names of its files."""
    words = WORDS | UPSTREAM | {word for path in FILES for word in WORD.findall(path)}
    words.update(*CRATES.values())
    for path in FILES:
        is_script = re.fullmatch(r"(?:\.ci|stress)/[\w-]+", path) and os.path.isfile(os.path.join(ROOT, path))
        comment = CODE[".py"] if is_script else CODE.get(os.path.splitext(path)[1])
        if comment:
            words.update(WORD.findall(re.sub(comment, "", text_of(path))))
    return words


KNOWN = code_words()


def places(path):
    """Yields each paragraph of a page behind its line, and the folders whose calls it is about, as the words before it tell."""
    crate = room = ()
    for line, text in paragraphs(path):
        if text.startswith("#"):
            crate = room = tuple(f"crates/{it}/src/" for it in SPAN.findall(text) if it in CRATES)
        elif crate and not text.startswith("|"):
            homes = [home for it in SPAN.findall(text) if (home := CONTRACTS.home.get(it, "")).startswith(crate)]
            room = (re.match(r"crates/\w+/src/\w+", homes[0]).group(),) if homes else room
        yield line, text, room


def unknown_words(text):
    """Yields each file, word and member in backticks that there is not, and a message."""
    for span in SPAN.findall(text):
        for word in span.split():
            if not is_path(word):
                yield from ((it, f"nothing in the code is called {it}") for it in WORD.findall(word) if it not in KNOWN)
            elif not is_file(word):
                yield word, f"there is no file {word}"
        for owner, member in MEMBER.findall(span):
            if member not in CONTRACTS.members.get(owner, {member}):
                yield member, f"{owner} has no {member}"


def lost_links(text, page):
    """Yields each link of a page that leads to no page, or to no heading of one."""
    for target, heading in LINK.findall(text):
        path = os.path.normpath(os.path.join(os.path.dirname(page), target)) if target else page
        if "://" in target:
            continue
        if not os.path.exists(os.path.join(ROOT, path)):
            yield target, f"there is no page {path}"
        elif heading and heading not in headings(path):
            yield heading, f"{path} has no heading {heading}"


def calls_of(spans, room):
    found = [CONTRACTS.named(match.group(1).split("::"), room) for it in spans if (match := CALL.match(it))]
    return [call for calls in found for call in calls]


def foreign_clauses(text, room):
    """Yields each clause that no call has behind or before which it stands."""
    spans = []
    for token in TOKEN.findall(text):
        calls = calls_of(spans, room) if token[0] == "(" else []
        for name in SPAN.findall(token) if calls else ():
            if CLAUSE.match(name) and not any(name in call.clauses for call in calls) and not ("_" in name and name in CONTRACTS.words):
                yield name, f"no clause of {', '.join(spans)} is called {name}"
        spans = [*spans, token[1:-1]] if token[0] == "`" else []
    for is_cut, names, owners in OF.findall(text):
        names, owners = SPAN.findall(names), SPAN.findall(owners)
        sets = [call.clauses for call in calls_of(owners, room)] + [CONTRACTS.members[it] for it in owners if it in CONTRACTS.members]
        for name in names[-1:] if is_cut else names:
            if sets and not any(name in it for it in sets):
                yield name, f"{', '.join(owners)} has no {name}"


def foreign_words(text, room):
    """Yields each word in the last column of a table about a crate, but for what is in brackets, that is nothing there."""
    if room and text.startswith("|"):
        cell = re.sub(r"\([^()`]*`[^()]*\)", "", text.rstrip(" |").rpartition(" | ")[2])
        for name in SPAN.findall(cell):
            if CLAUSE.match(name) and name not in CONTRACTS.clauses_in(room) and name not in CONTRACTS.words:
                yield name, f"no call or definition is called {name}, and no clause in {', '.join(room)}"


def faults(text, room, page):
    """Yields each untrue word of a paragraph, and what is wrong with it."""
    if page == FOREIGN and text.startswith("|"):
        text = text[1:].partition("|")[2]
    yield from unknown_words(text)
    yield from lost_links(text, page)
    yield from foreign_clauses(text, room)
    yield from foreign_words(text, room)
    yield from ((count, f"a script counts that: {count}") for count in COUNT.findall(text))


def unlisted():
    """Yields each example that the list of examples does not have."""
    listed = set(SPAN.findall(text_of("docs/EXAMPLES.md")))
    for path in paths("examples", "src/*.rt"):
        if not path.endswith("/lib.rt") and os.path.basename(path) not in listed:
            yield f"docs/EXAMPLES.md: it does not have {path}"


def check():
    """Returns what is wrong."""
    found = []
    for path in DOCUMENTS:
        for line, text, room in places(path):
            wrong = faults(text, room, path)
            found += [f"{path}:{line + text[: text.find(word)].count(chr(10))}: {it}" for word, it in wrong]
    return [*found, *unlisted()]
