"""Shows that documents and comments use the field's words: no page, and no comment of a crate's sources and definitions, has a form of
FORMS, outside code and quoted messages. Each form stands beside what to write in its place."""

import re

from checks.items import paths, text_of
from checks.pages import DOCUMENTS, prose

FORMS = {
    r"(?:all )?but (?:for|in)\b|\ball but\b": "except, unless",
    r"\bof which\b": "a second sentence",
    r"\bhand(?:s|ed|ing)? (?:it |them )?(?:back|out)\b": "return",
    r"\bpass(?:es|ed|ing)? (?:it |them )?on\b": "re-export, pass",
    r"\bwant of memory\b|\bmemory (?:is|was) lacking\b|\black(?:s|ed)? memory\b|\bmemory lack(?:s|ed)\b": "out of memory, an allocation fails",
    r"\bgo(?:es|ing)? through (?:all|each|the|its|a)\b": "iterate over",
    r"\bwrong bod(?:y|ies)\b": "mutant",
    r"\brefusals?\b": "error",
    r"(?:^|[.;:] )Who [a-z]+s\b": "if you ..",
}
COMMENTS = ("src/**/*.rt", "unproved/*.unproved", "specs/**/*.antt")
COMMENT = re.compile(r"^\s*(?:///|//!|//|--) ?(.*)$")
CODE = re.compile(r"`[^`\n]*`|\"[^\"\n]*\"")


def faults_of(text):
    """Yields the place, and what is wrong there, for each form in a text."""
    for form, instead in FORMS.items():
        for found in re.finditer(form, text, re.M | re.I):
            yield found.start(), f"\"{found.group().strip()}\": write {instead}"


def comments(path):
    """Returns a source with an empty line in place of each line that is no comment."""
    found = (COMMENT.match(line) for line in text_of(path).splitlines())
    return "\n".join(it[1] if it else "" for it in found)


def check():
    """Returns what is wrong."""
    texts = {path: prose(path) for path in DOCUMENTS}
    texts.update((path, comments(path)) for pattern in COMMENTS for path in paths("*", pattern))
    found = []
    for path, text in texts.items():
        text = CODE.sub(lambda code: "`" * len(code.group()), text)
        found += [f"{path}:{text.count(chr(10), 0, place) + 1}: {fault}" for place, fault in sorted(faults_of(text))]
    return found
