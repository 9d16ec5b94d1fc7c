"""The page of laws and lemmas that proofs of one's own may use, docs/api/lemmas.md: each with its statement, which is that of the source,
a sentence, the line that imports it and the goal that it closes.

A law is a function `.._law`, which a body calls. A lemma is one of LEMMAS, which has the laws of specs/laws that callers may cite, and
of proofs/ what callers in this repository use. It fails if a lemma is not there, if a law has no goal in GOALS, and if a crate outside
the library uses a lemma of it that the page does not have.
"""

import re

from checks.items import LIBRARY, text_of, title_of
from reference.sections import block, contract, first_sentence
from crates import files, libraries_of_crates

PAGE = "lemmas.md"
INTRODUCTION = """# Laws and lemmas

This page lists the laws and lemmas for your own proofs. [PROVING.md](../PROVING.md) shows how to prove a function. Most functions need none
of them. "Goal" is the goal that a law or a lemma proves.

## Laws that a body calls

The contract of such a function states the law. The function does nothing else, or returns the result of the call beside it. The checker
takes facts from calls. So call the function in the body of yours, as in `dead_keys_law::<Service>();`. You then need no proof file.
"""
LEMMAS_INTRODUCTION = """## Lemmas

Above the statement of each lemma stands the line that imports it in a proof file. In a source file, write `ghost use` for `use`, and end
the line with `;`. If a lemma's name has no hyphen, you can give it to the search: write `#[tactic(auto, using(..))]` above your function,
with the lemma's path, such as `ix_atomic::specs::laws::HistoryLaws::latest_known`. Later versions keep the laws of `specs/laws`. They may
change the lemmas of `proofs`.
"""
GOALS = {
    ("ix_slottable", "default_key_law"): "`value_at table.now key ≡ None`, where `key` is `SlotTableKey::default()`",
    ("ix_slotmap", "dead_keys_law"): "`slot_map_value map key ≡ None`, where `IsDead map key` is known",
    ("ix_slotmap", "cleared_keys_law"): "`IsDead (slot_map_clear map) key`; the call `len` promises `IsSlotMapFormed map`",
    ("ix_slotmap", "key_order_law"): "what follows from `key < other` for the indexes and the generations of two keys",
    ("ix_slotmap", "default_key_law"): "`IsDead map.now key`, where `key` is `SlotMapKey::default()`",
    ("ix_hashmap", "hash_map_memory_law"): "how many bytes and blocks `memory_size` of a hash map returns",
    ("ix_atomic", "plain_read_law"): "which bytes a finished read has that overlaps no write, if the last write before it overlaps no other",
    ("ix_atomic", "versioned_read_law"): "which bytes a read has between two loads of one even version",
    ("ix_commands", "dead_law"): "that a dead key stays dead, whatever commands are run",
    ("ix_run", "line_law"): "which lines an input has",
    ("ix_run", "reply_law"): "that a reply is one line",
    ("ix_run", "script_law"): "which replies a script gets",
    ("ix_run", "spelling_law"): "which command a line spells",
}
ONE_VALUE, LEN = "`one_value` of an `impl AtomicCopy`", "`encoding_len` of an `impl AtomicCopy`"
# By title; then each by its crate, its file and its name, with what it says and the goal that it closes.
LEMMAS = {
    "What a seat of a cell knows": (
        ("ix_atomic", "specs.laws.HistoryLaws", "Knows", "Some version of the known history has this value.", "none; a word for clauses, as `IfSome latest (Knows reader.new.known)`"),
        ("ix_atomic", "specs.laws.HistoryLaws", "latest_known", "A reader still knows what it read last.", "`IfSome latest (Knows reader.new.known)` after a `try_read` that returned an error"),
        ("ix_atomic", "specs.laws.HistoryLaws", "Begins-loads", "What a seat knew before a read is a beginning of what it knows after it, whether a write interfered or not.", "`Begins before.known after.known` after `try_read`"),
        ("ix_atomic", "specs.laws.HistoryLaws", "Begins-trans", "A beginning of a beginning of a history is one of the history.", "`Begins first.known last.known` over several calls"),
        ("ix_atomic", "specs.laws.HistoryLaws", "Begins-length", "A beginning of a list is no longer than the list.", "`length before.known ≤ length after.known`"),
        ("ix_atomic", "specs.laws.HistoryLaws", "slice_get-begins", "What stands at a place of a history stands there in each later one.", "`slice_get after.known place ≡ Some value`"),
        ("ix_atomic", "specs.laws.HistoryLaws", "history_value-begins", "A version keeps its value.", "`history_value after.known version ≡ Some value`"),
        ("ix_atomic", "specs.laws.HistoryLaws", "Knows-begins", "A value of a known version is one in each later history.", "`Knows after.known value`"),
        ("ix_atomic", "proofs.EveryValue", "every_value", "What holds of the opening value and of each value that was written with a seat holds of every value, if the seat has all places but the first.",
         "a fact of every version, after `merge` brought all seats together"),
        ("ix_atomic", "proofs.OwnPlaces", "merge-cases", "A place of two merged seats is one of the first or of the second.", "with which seat a value was written, after `merge`"),
    ),
    "What was written with a seat of a cell": (
        ("ix_atomic", "proofs.Written", "written_more", "One more value was written.", "`HasWritten writer.new (values ++ value ∷ [])` after a `try_write`"),
        ("ix_atomic", "proofs.Written", "set_more", "One more value was written, and the opening value counts as the first.", "`HasSet writer.new (values ++ value ∷ [])` after a `try_write`"),
        ("ix_atomic", "proofs.Written", "refused_written", "A refused write leaves what was written.", "`HasWritten writer.new values` after a `try_write` that returned an error"),
        ("ix_atomic", "proofs.Written", "refused_set", "The same, where the opening value counts.", "`HasSet writer.new values` after a `try_write` that returned an error"),
        ("ix_atomic", "proofs.Written", "StandAt-longer", "What stands in a history stands in each later one.", "`StandAt` of a later history"),
        ("ix_atomic", "proofs.Written", "merged_values", "If two seats have all places but the first, each value of the history is the opening one or one that they wrote.", "a fact of every version, by what each seat wrote"),
        ("ix_atomic", "proofs.Written", "wrote_all", "A seat that wrote as often as the version says knows the whole history.", "`writer.known ≡ values` once the cell is taken back"),
        ("ix_atomic", "proofs.Written", "never_lower", "Where no value of a history is less than one before it, what is read later is not less.", "`first ≤ second` of two reads"),
    ),
    "Encodings of your own": (
        ("ix_atomic", "specs.laws.EncodingLaws", "bool_encoding-one_value", "No two `bool`s have the same encoding.", ONE_VALUE),
        ("ix_atomic", "specs.laws.EncodingLaws", "unsigned_encoding-one_value", "No two unsigned integers of one width have the same encoding.", ONE_VALUE),
        ("ix_atomic", "specs.laws.EncodingLaws", "u32_encoding-one_value", "No two `u32`s have the same encoding.", ONE_VALUE),
        ("ix_atomic", "specs.laws.EncodingLaws", "u64_encoding-one_value", "No two `u64`s have the same encoding.", ONE_VALUE),
        ("ix_atomic", "specs.laws.EncodingLaws", "signed_encoding-one_value", "No two signed integers of one width have the same encoding.", ONE_VALUE),
        ("ix_atomic", "specs.laws.EncodingLaws", "i8_encoding-one_value", "No two `i8`s have the same encoding.", ONE_VALUE),
        ("ix_atomic", "specs.laws.EncodingLaws", "i64_encoding-one_value", "No two `i64`s have the same encoding.", ONE_VALUE),
        ("ix_atomic", "specs.laws.EncodingLaws", "padded_text-len", "A text that fits has, with zeros behind it, as many bytes as the capacity.", LEN),
        ("ix_atomic", "specs.laws.EncodingLaws", "padded_text-one_value", "No two texts are the same with zeros behind them.", ONE_VALUE),
        ("ix_atomic", "specs.laws.EncodingLaws", "append-both", "Lists that are each made of two are the same only if their parts are, where the first parts have one length.", ONE_VALUE),
        ("ix_atomic", "specs.laws.EncodingLaws", "pair_encoding-len", "Two encodings, one behind the other, have the sum of their sizes.", LEN),
        ("ix_atomic", "specs.laws.EncodingLaws", "pair_encoding-one_value", "No two pairs have the same encoding, if no two of their parts have, and all first parts take as many bytes.", ONE_VALUE),
        ("ix_atomic", "specs.laws.EncodingLaws", "triple_encoding-len", "Three encodings, one behind the other, have the sum of their sizes.", LEN),
        ("ix_atomic", "specs.laws.EncodingLaws", "triple_encoding-one_value", "No two triples have the same encoding, if no two of their parts have, and all first parts take as many bytes, and so all second ones.", ONE_VALUE),
        ("ix_atomic", "specs.laws.ArrayLaws", "array_encoding-len", "The encodings of several values have as many bytes as these take together.", LEN),
        ("ix_atomic", "specs.laws.ArrayLaws", "array_encoding-one_value", "No two lists of one length have the same encoding, if no two items have.", ONE_VALUE),
        ("ix_atomic", "specs.laws.ArrayLaws", "byte_array_encoding", "An array of bytes is its own encoding.", "the encoding of a `[u8; N]` as its bytes"),
        ("ix_atomic", "specs.laws.EncodingLaws", "decodes_by", "Where the fields of a value are decoded, the value is.", "the promise of `decode`, of a type that is made of its fields"),
    ),
    "What a queue has": (
        ("ix_queue", "proofs.Members", "number_is_item", "A number that `contains` finds is an item.", "`IsTrue result → Contains queue.now.items number`"),
        ("ix_queue", "proofs.Members", "item_is_found", "A number that is an item is found.", "`Contains queue.now.items number → IsTrue result`; with the other law, `IsTrue result ↔ Contains queue.now.items number`"),
    ),
    "A container and a list of its keys": (
        ("ix_slottable", "proofs.KeyLists", "IsInStep-inserted", "A new key is inserted in the container, and is the last of the list.", "`IsInStep` after an `insert` and a `push`"),
        ("ix_slottable", "proofs.KeyLists", "IsInStep-removed", "A key is removed from both.", "`IsInStep` after a `remove` and a `retain` of the other keys"),
        ("ix_slottable", "proofs.KeyLists", "IsInStep-popped", "The first key of the list is removed from both.", "`IsInStep` after a `pop` and a `remove`"),
        ("ix_slottable", "proofs.KeyLists", "IsInStep-used", "The same keys are found, and one is the last of the list.", "`IsInStep` after a `replace`, a `retain` and a `push`"),
        ("ix_slottable", "proofs.KeyLists", "IsInStep-kept", "The same keys are found, and the list is the same.", "`IsInStep` after a value is overwritten"),
        ("ix_slottable", "proofs.KeyLists", "count-without_same", "A key is not in the list without it.", "`count_by (eq key) (without eq key keys) ≡ 0`"),
        ("ix_slottable", "proofs.KeyLists", "count-without_other", "Any other key is there as often as it was.", "`count_by (eq other) (without eq key keys) ≡ count_by (eq other) keys`"),
        ("ix_slottable", "proofs.KeyLists", "length-without", "A list has as many keys as the list without one of them, and that one as often as it is there.", "that a `push` has room after a `retain`"),
        ("ix_slottable", "proofs.KeyLists", "without-absent", "A list without a key that is not there is the list.", "`used_last eq key keys ≡ keys ++ key ∷ []` of a new key"),
        ("ix_slottable", "proofs.KeyLists", "length-used_last", "A key that is there once is moved: the list is as long as it was.", "`length keys.new ≡ length keys.old`"),
        ("ix_slottable", "proofs.KeyLists", "count-used_last", "A key that is there once is moved: each is there as often as it was.", "`count_by (eq other) (used_last eq key keys) ≡ count_by (eq other) keys`"),
        ("ix_slottable", "proofs.KeyLists", "ListsEach-pushed", "The list has each key whose value is such, and then one more key, whose value may have changed.", "`ListsEach` after an `insert` and a `push`"),
    ),
    "A container and an index of it": (
        ("ix_slotmap", "proofs.SlotMapIndexes", "IsIndexOf-map_insert", "A value is inserted in a slot map, and its key in the index.", "`IsIndexOf` after an `insert` in both"),
        ("ix_slotmap", "proofs.SlotMapIndexes", "IsIndexOf-map_remove", "What a name finds is removed from a slot map, and the name from the index.", "`IsIndexOf` after a `remove` of both"),
        ("ix_slottable", "proofs.KeyIndexes", "IsIndexOf-table_insert", "A value is inserted in a slot table, and its key in the index.", "`IsIndexOf` after an `insert` in both"),
        ("ix_slottable", "proofs.KeyIndexes", "IsIndexOf-table_remove", "What a name finds is removed from a slot table, and the name from the index.", "`IsIndexOf` after a `remove` of both"),
        ("ix_slottable", "proofs.KeyIndexes", "IsIndexOf-held", "What a name finds is held.", "that a key which the index found may be an index, or finds a value"),
        ("ix_slottable", "proofs.KeyIndexes", "IsIndexOf-empty", "Both are empty.", "`IsIndexOf` of two new containers, by their clauses `empty`"),
        ("ix_slottable", "proofs.KeyIndexes", "nat_eq-Decides", "`nat_eq` of two numbers is `true` exactly if they are the same.", "the first argument of the lemmas above, where the names are numbers. Where they are texts, take `Rattle.std.specs.Cmp.Lexicographic.bytes_decides`"),
        ("ix_slotmap", "proofs.SlotMapIndexes", "SlotMapInsert-others", "After an insert in a slot map every other key, held or not, finds what it found.", "`slot_map_value map.new other ≡ slot_map_value map.old other`"),
    ),
    "What a test leaves": (
        ("ix_tables", "proofs.Filtered", "filter_leaves_out", "An item that fails the test is not left.", "`¬ (Contains items.new item)` after a `retain`"),
        ("ix_tables", "proofs.Filtered", "filter_keeps", "An item that passes the test is left.", "`Contains items.new item` after a `retain`"),
        ("ix_tables", "proofs.Filtered", "Contains-filter", "An item that is left was there, and passes the test.", "what is known of an item that `Contains items.new` speaks of"),
    ),
    "A window of the last items": (
        ("ix_queue", "proofs.Windows", "window_step", "The last items of a list, and one more.", "the invariant of a loop that calls `push_with_overflow`"),
    ),
    "Rules over texts": (
        ("ix_string", "proofs.Appending", "Appended-ok", "What `push_bytes` leaves if it returns no error.", "the invariant of a loop that appends bytes"),
        ("ix_string", "proofs.Appending", "not_refused", "Bytes that are a text and fit are appended.", "that `push_bytes` returns no error"),
        ("ix_string", "proofs.Appending", "IsText-yes", "Bytes that pass the test of a string are a text.", "`IsText bytes`"),
        ("ix_semantic_string", "specs.laws.SampleRulesLaws", "without_trailing_slashes-fits", "A text without its trailing slashes fits where the text does.", "the length in `normal_accepted` of an `impl Rules` with this normal form"),
        ("ix_semantic_string", "specs.laws.SampleRulesLaws", "IsText-without_trailing_slashes", "A text without its trailing slashes is a text.", "the bytes in `normal_accepted`"),
        ("ix_semantic_string", "specs.laws.SampleRulesLaws", "without_trailing_slashes-twice", "Removing trailing slashes again changes nothing.", "`normal_twice`"),
        ("ix_string", "proofs.Texts", "is_text-yes", "Bytes that are a text pass the test of a string.", "that a string does not refuse bytes as invalid of which `IsText` is known"),
    ),
    "Closures that are passed on to a queue": (
        ("ix_queue", "proofs.QueueCalls", "IsCallableOnEach-always", "A closure that may always be called may be called with each item.", "`retain-requires`, where your function requires `F.IsAlwaysCallable test`"),
        ("ix_queue", "proofs.QueueCalls", "IsCallableOnEachMut-always", "A closure that may always be called may be called with each item, to change it.",
         "`for_each_mut-requires`, where your function requires `F.IsAlwaysCallable change`"),
        ("ix_queue", "proofs.QueueCalls", "ChangesInTurn-map", "A closure that changes no capture, and each item in one way, makes a `map` of the items.",
         "`queue.new.items ≡ map change queue.old.items`, by the clause `items` of `for_each_mut`; its clause `mapped` needs no lemma"),
    ),
}
CITED = re.compile(r"use Rattle\.(ix_\w+)\.((?:proofs|specs\.laws)\.\w+)\.\{([^}]*)\}")
GIVEN = re.compile(r"\b(ix_\w+)::((?:proofs|specs::laws)::\w+)::(\w+)")


def source_of(crate, place):
    return f"crates/{crate}/{place.replace('.', '/')}.antt"


def broken(text):
    """Returns a statement in lines, none of which ends within brackets."""
    lines, depth = [""], 0
    for part in re.split(r" (?=→ )", text):
        if not depth and lines[-1] and len(lines[-1]) + len(part) > 100:
            lines.append("    " + part)
        else:
            lines[-1] += f" {part}" if lines[-1] else part
        depth += len(re.findall(r"[({]", part)) - len(re.findall(r"[)}]", part))
    return lines


def statement(lines, name):
    """Returns the lines of a lemma's statement, below the parameters of the modules around it; nothing if it is not there."""
    first = next((i for i, line in enumerate(lines) if re.match(rf" *(?:abbrev )?pub {re.escape(name)} :", line)), None)
    if first is None:
        return []
    indent = len(lines[first]) - len(lines[first].lstrip())
    last = next(i for i in range(first + 1, len(lines)) if len(lines[i]) - len(lines[i].lstrip()) <= indent)
    found = [re.sub(r"^(?:abbrev )?pub ", "", line[indent:]) for line in lines[first:last]]
    found = found if found[1:] else broken(found[0])
    # A definition has its meaning too.
    found += [lines[last].strip()] if "abbrev" in lines[first] else []
    for line in reversed(lines[:first]):
        around = len(line) - len(line.lstrip())
        if around < indent and line.lstrip().startswith("module _"):
            found, indent = [line.strip(), *("  " + it for it in found)], around
    return found


def laws(library):
    """Yields the lines of each law that a body calls."""
    found = [(module, it) for module in library.modules for _, items in module.items for it in items if it.name.endswith("_law")]
    names = [item.name for _, item in found]
    for module, item in found:
        signature, _, promises = contract(item.head)
        use, link = f"use {title_of(module)}::{item.name};", f"[`{title_of(module)}`]({library.homes[module.crate, item.name]})"
        heading = f"`{item.name}`" + (f" of `{module.crate}`" if names.count(item.name) > 1 else "")
        yield [
            f"### {heading}", "", f"{first_sentence(item.docs)} It is in {link}.", "",
            *block("", [use, "", *signature, *("    " + line for line in promises)]), f"Goal: {GOALS.get((module.crate, item.name))}.", "",
        ]


def lemmas():
    """Yields the lines of each lemma, behind the titles."""
    for title, rows in LEMMAS.items():
        yield [f"### {title}", ""]
        for crate, place, name, sentence, goal in rows:
            path = source_of(crate, place)
            code = [f"use Rattle.{crate}.{place}.{{{name}}}", "", *statement(text_of(path).splitlines(), name)]
            yield [f"#### `{name}`", "", sentence, "", *block("", code, "antt"), f"Goal: {goal}. [Source](../../{path})", ""]


def page(library):
    """Returns the text of the page, with marks in place of links."""
    parts = [INTRODUCTION.splitlines(), [""], *laws(library), LEMMAS_INTRODUCTION.splitlines(), [""], *lemmas()]
    return "\n".join(line for part in parts for line in part).rstrip("\n") + "\n"


def used_outside():
    """Returns the lemmas of the library that other crates use, each with a file that does."""
    found = {}
    for crate in (it for it in libraries_of_crates() if it not in LIBRARY and not it.startswith("ix_")):
        for path in files(crate, ("proofs", "specs", "src")):
            text = text_of(path)
            cited = [(of, place, name.strip()) for of, place, names in CITED.findall(text) for name in names.split(",")]
            given = [(of, place.replace("::", "."), name) for of, place, name in GIVEN.findall(text)]
            found.update(((it, path) for it in [*cited, *given]))
    return found


def faults(library):
    """Yields what is wrong with the tables of this page."""
    known = {row[:3] for rows in LEMMAS.values() for row in rows}
    for crate, place, name in sorted(known):
        if not statement(text_of(source_of(crate, place)).splitlines(), name):
            yield f"docs/api/{PAGE}: {source_of(crate, place)} has no lemma {name}"
    yield from (f"{path}: docs/api/{PAGE} has no lemma {it[2]} of {it[0]}" for it, path in used_outside().items() if it not in known)
    found = {(module.crate, it.name) for module in library.modules for _, items in module.items for it in items if it.name.endswith("_law")}
    yield from (f"docs/api/{PAGE}: {crate} has no law {name}" for crate, name in sorted(set(GOALS) - found))
    yield from (f"docs/api/{PAGE}: it does not say which goal {name} of {crate} closes" for crate, name in sorted(found - set(GOALS)))
