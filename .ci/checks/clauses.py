"""The members of types and the clauses of calls, as sources and specs have them."""

import collections
import functools
import re

from crates import libraries_of_crates
from checks.items import ALIAS, LIBRARY, base_of, items_of, paths, text_of, trait_of

CLAUSE = re.compile(r"\b(?:ensures|requires)\*? (\w+)")
GHOST = re.compile(r"^    ghost (?!use\b)(\w+)", re.M)
RECORD = re.compile(r"^( *)(?:pub )?record (\w+).*\n((?:\1 .*\n|\n)*)", re.M)
DEFINED = re.compile(r"^(?: *(?:abbrev pub|pub record|record) |pub (?=\w+ :))(\w+)", re.M)
FIELD = re.compile(r"^ *pub (\w+) ", re.M)
WORD = re.compile(r"[^\W\d]\w*")

# owners: the types, the trait and the module that a call may be named by. clauses: the names of its clauses.
Call = collections.namedtuple("Call", "path owners clauses")


def of_library(path):
    return path.split("/")[1] in (*LIBRARY, "examples")


class Contracts:
    """The calls by their name, what each type or trait has (calls, clauses, fields, variants, ghost members), and definitions."""

    def __init__(self):
        self.calls, self.members = collections.defaultdict(list), collections.defaultdict(set)
        self.home, self.same, self.records, self.words = {}, collections.defaultdict(set), {}, set()
        files = [(path, text_of(path)) for crate in libraries_of_crates() for path in paths(crate, "**/*")
                 if path.endswith((".rt", ".antt")) and "/out/" not in path]
        for path, text in files:
            if "/specs/" in path:
                self.records.update((name, set(FIELD.findall(body))) for _, name, body in RECORD.findall(text))
            self.words.update(DEFINED.findall(text) if path.endswith(".antt") else ())
        for path, text in files:
            if "/src/" in path:
                self.read(path, text.splitlines())
        self.share()
        self.words |= {name for name, calls in self.calls.items() if any(of_library(call.path) for call in calls)}

    def read(self, path, lines):
        """Adds the items of a source file."""
        for item in items_of(lines):
            name = base_of(item.name) if item.kind == "impl" else item.name
            body = "\n".join(lines[item.first : item.last + 1])
            if item.kind == "fn":
                self.add(item, path, {re.sub(r".*/|\.rt$", "", path)})
                continue
            if item.kind == "type" and (alias := ALIAS.match(" ".join(item.head))):
                self.same[name].add(alias.group(2))
            elif item.kind == "impl":
                self.same[name].update({trait_of(item.name)} - {""})
            else:
                self.home.setdefault(name, path)
            parts = [*item.head[:1], *re.findall(r"^[^/]*", body, re.M)] if item.kind in ("struct", "enum") else []
            self.members[name].update(GHOST.findall(body), self.same[name], WORD.findall(" ".join(parts)))
            self.words.update(GHOST.findall(body))
            for member in item.members:
                clauses = self.add(member, path, {name}) if member.kind == "fn" else set()
                self.members[name].update({member.name}, clauses)

    def add(self, function, path, owners):
        """Adds a call, and returns the names of its clauses: those that it states, and the fields of the records that it cites."""
        head = " ".join(function.head)
        clauses = set(CLAUSE.findall(head)).union(*(self.records.get(word, ()) for word in WORD.findall(head)))
        self.calls[function.name].append(Call(path, set(owners), clauses))
        return clauses

    def share(self):
        """Gives each type what its traits and the type that it is another name of have."""
        for _ in range(3):
            for name, others in list(self.same.items()):
                for other in others:
                    self.members[name] |= self.members[other]
        for calls in self.calls.values():
            for call in calls:
                for _ in range(3):
                    call.owners.update(name for name, others in self.same.items() if others & call.owners)

    def named(self, words, room=()):
        """Returns the calls that a qualified name stands for; of a plain one those in these folders or crates, if there are any."""
        *owners, name = words
        found = [call for call in self.calls.get(name, ()) if not owners or owners[-1] in call.owners]
        return [call for call in found if call.path.startswith(room)] or found

    @functools.lru_cache(None)
    def clauses_in(self, room):
        """Returns the names of all clauses in folders."""
        return {clause for calls in self.calls.values() for call in calls if call.path.startswith(room) for clause in call.clauses}
