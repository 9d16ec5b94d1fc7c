"""Fails if a public call that can say that memory lacked is neither made in stress/refused_memory nor named below with the reason.

Such a call returns `AllocError`, `InitError` or an enum of the library that has a variant `OutOfMemory`. stress/refusals has the
calls that are made, and how often each allocates.
"""

import importlib.machinery
import importlib.util
import os
import re

from checks.items import LIBRARY, base_of, is_own, items_of, paths, text_of
from crates import ROOT

# What is said of several types has the name of each in stress/refusals.
TRIED_AS = {
    "HeapMap::new": ("FlatMap::new", "HashMap::new"),
    "HeapMap::with_hasher": ("HashMap::with_hasher",),
    "HeapMap::try_clone_in": ("FlatMap::try_clone_in", "HashMap::try_clone_in"),
    "HeapMap::to_value": ("FlatMap::to_value", "HashMap::to_value"),
    "InlineMap::clone": ("FixedSizeFlatMap::clone", "FixedSizeHashMap::clone"),
    "InlineMap::to_value": ("FixedSizeFlatMap::to_value", "FixedSizeHashMap::to_value"),
    "HeapString::try_from_bytes": ("PolymorphicString::try_from_bytes",),
    "HeapString::try_from_str": ("PolymorphicString::try_from_str",),
    "Queue::try_clone_in": ("MetaQueue::try_clone_in",),
    "SlotTable::try_clone_in": ("MetaSlotTable::try_clone_in",),
    "SlotMap::try_clone_in": ("MetaSlotMap::try_clone_in",),
    "MetaMap::get": ("MetaFlatMap::get",),
    "Uninit::init": ("UninitVec::init", "UninitString::init", "UninitQueue::init", "UninitSlotTable::init", "UninitFlatMap::init", "UninitHashMap::init"),
    "Vector::extend_from_slice_unchecked": ("extend_from_slice_unchecked of a",),
    "Vector::extend_from_slice": ("extend_from_slice",),
    "Vector::resize": ("resize of a",),
    "script": ("queue", "vec", "table", "slot", "flat", "text"),
}
# By reason, the calls that are not made there, as a pattern.
REASONS = {
    "takes no memory, by its contract": r"\w+::(from_value|fill_from_value)|SequencedByteAtomic::(reader|writer)|(StringCreationError|AllocError)::from",
    "copies numbers and references": r"(Iter|Keys|Values|Parts|RowPtr|Reply|\w+Command|Ruled|Semantic)::clone|(bool|[iu](8|16|32|64|size))::to_value",
    "makes no item, so it lacks room alone": r"Vector::(push|insert|try_insert|append|extend_from_iter|resize_with)|StaticVec::(try_from_iter|split_off)",
    "is part of a call that is made there": r"put_clones|(HeapTable|FilledHeapTable|HeapArray|RawSlots)::new|\w+Family::with_capacity|\w+::(new_in|copy_in)|Pair::clone|run_all|StaticVec::extend_from_slice_unchecked|\w+::show",
    "is a trait's, whose impls are made there": r"ContainerFamily::with_capacity|RelocatableContainer::init|Json(Form|Fill)::to_value|Served::show",
}


def tables():
    """Returns the names of stress/refusals, a script without an ending."""
    loader = importlib.machinery.SourceFileLoader("refusals", os.path.join(ROOT, "stress", "refusals"))
    refusals = importlib.util.module_from_spec(importlib.util.spec_from_loader("refusals", loader))
    loader.exec_module(refusals)
    return {*refusals.numbers_of(refusals.ALLOCATIONS), *refusals.numbers_of(refusals.GROWING)}


def sources():
    return [items_of(text_of(path).splitlines()) for crate in LIBRARY for path in paths(crate, "src/**/*.rt")]


def lacks_memory(found):
    """Returns a pattern of the types by which a call says that memory lacked."""
    own = {it.name for items in found for it in items if it.kind == "enum" and any(re.match(r"\s*OutOfMemory\b", line) for line in it.head)}
    return re.compile(rf"\b(?:{'|'.join(sorted({'AllocError', 'InitError', *own}))})\b")


def calls(found):
    """Yields the name of each public call that may find no memory."""
    errors = lacks_memory(found)
    for items in found:
        for owner in items:
            members = owner.members if owner.kind in ("trait", "impl") else [owner]
            for call in members:
                is_seen = call.is_public or owner.kind == "trait" or owner.kind == "impl" and not is_own(owner)
                signature = re.split(r"\s(?:requires|ensures|where)\b", " ".join(call.head))[0]
                if call.kind == "fn" and is_seen and errors.search(signature.rpartition("->")[2]):
                    of = owner.name if owner.kind == "trait" else base_of(owner.name) if owner.kind == "impl" else ""
                    yield f"{of}::{call.name}" if of else call.name


def unlisted(found, made):
    """Returns those of the calls that are neither made nor have a reason."""
    is_made = lambda call: all(it in made for it in TRIED_AS.get(call, (call,)))
    return [call for call in found if not is_made(call) and not any(re.fullmatch(it, call) for it in REASONS.values())]


def check():
    """Returns what is wrong."""
    made, found = tables(), sorted(set(calls(sources())))
    wrong = [f"{call} is not made in stress/refused_memory" for call in unlisted(found, made)]
    wrong += [f"no call is {it}" for it in (*TRIED_AS, *REASONS.values()) if not any(re.fullmatch(it, call) for call in found)]
    # A new call, and one whose trials are gone, are refused.
    if unlisted(["Queue::new", "Queue::new_full"], made - {"Queue::new"}) != ["Queue::new", "Queue::new_full"]:
        wrong.append("a call that is not made is not refused")
    return wrong
