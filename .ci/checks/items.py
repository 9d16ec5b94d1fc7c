"""The public items of the library's crates, by module, as their sources have them."""

import collections
import functools
import glob
import os
import re

from crates import ROOT, read

LIBRARY = ("ix_tables", "ix_vector", "ix_string", "ix_semantic_string", "ix_relocatable_option", "ix_queue", "ix_slottable", "ix_slotmap",
           "ix_flatmap", "ix_hashmap", "ix_atomic", "ix_json", "ix_commands", "ix_run")
# Crates that have no items of their own, and pass on those of others.
FACADES = ("ix_cells", "ix_names", "ix_maps")
HEAD = re.compile(r"(pub )?(?:pub\(\w+\) )?(?:(?:const|unsafe|final) )*(fn|struct|enum|trait|type|const|impl)\b(.*)")
GENERICS = re.compile(r"^<(?:[^<>]|<(?:[^<>]|<(?:[^<>]|<[^<>]*>)*>)*>)*>\s*")
HIDDEN = "#[doc(hidden)]"
REEXPORT = re.compile(r"(#\[doc\(hidden\)\]\n)?^pub use ((?:\w+::)+)(?:\{([^}]*)\}|(\w+));", re.M)
PUBLIC_MODULE = re.compile(r"(#\[doc\(hidden\)\]\n)?^pub mod (\w+);", re.M)
PRIVATE_MODULE = re.compile(r"^mod (\w+);", re.M)
TRAIT = re.compile(r"^(?:pub(?:\(\w+\))? )?trait (\w+)", re.M)
IMPORT = re.compile(r"ghost use Rattle\.(ix_\w+)\.specs\.((?!declared|contracts)[\w.]+)\.\{([^}]*)\};")

ALIAS = re.compile(r"pub type (\w+).*? = (\w+)<")
TEXT = re.compile(r"=> (?:\{\s*)?(?:f\.write_str\()?\"([^\"\n]*)\"|f\.write_str\(\"([^\"\n]*)\"\)")

# ghosts: of an impl of a trait, what it pins, as lines by name. is_hidden: whether it is public for other crates of the library alone.
Item = collections.namedtuple("Item", "kind name is_public docs head first last members ghosts is_hidden")


def text_of(path):
    return read(path).decode()


def paths(crate, pattern):
    found = glob.glob(os.path.join(ROOT, "crates", crate, pattern), recursive=True)
    return sorted(os.path.relpath(path, ROOT) for path in found)


def extent(lines, first, indent):
    """Returns the index after an item's head, and that of its last line. The head has the contract, and no brace of the body."""
    for i in range(first, len(lines)):
        line = lines[i]
        at_margin = line.startswith(indent) and not line.startswith(indent + " ")
        if line.endswith("{}") or line.endswith(";"):
            return i + 1, i
        is_impl = " for " in line and lines[first].startswith(indent + "impl")
        if line.endswith("{") and (at_margin or is_impl):
            last = next(j for j in range(i, len(lines)) if lines[j] in (indent + "}", indent + "};"))
            return (i if line == indent + "{" else i + 1), last
    raise ValueError(f"an item without an end: {lines[first]}")


def name_of(kind, rest, head):
    """Returns an item's name, or what an impl is of, without its bounds."""
    if kind != "impl":
        return re.match(r"\s*(\w+)", rest).group(1)
    whole = " ".join(line.strip() for line in head).partition("impl")[2]
    whole = re.sub(r"(<) | ?,? (>)", r"\1\2", whole)
    return GENERICS.sub("", whole).partition(" where ")[0].strip().removesuffix("{}").removesuffix("{").strip()


def items_of(lines, indent="", first=0, end=None, lost=None):
    """Returns the items between two lines that stand at this indent, each with the items in it if it is a trait or an impl.

    Adds to `lost` the number of each line that parts docs from the item below.
    """
    items, docs, is_hidden, i = [], [], False, first
    end = len(lines) if end is None else end
    while i < end:
        line = lines[i]
        match = HEAD.match(line[len(indent):]) if line.startswith(indent) else None
        if line.startswith(indent + "///"):
            docs.append(line.strip()[4:])
        elif match:
            after, last = extent(lines, i, indent)
            is_public, kind, rest = match.groups()
            head = [it.removesuffix(" {}").removesuffix(" {").removeprefix(indent) for it in lines[i:after]]
            if kind in ("struct", "enum"):
                head = [*derives(lines, i), *visible(lines[i : last + 1])]
            if kind == "trait":
                head += ghost_members(lines[after:last])
            members = items_of(lines, indent + "    ", after, last, lost) if kind in ("trait", "impl") else []
            ghosts = pinned(lines[after:last]) if kind == "impl" else {}
            items.append(Item(kind, name_of(kind, rest, head), bool(is_public), docs, head, i, last, members, ghosts, is_hidden))
            docs, is_hidden, i = [], False, last
        elif line.strip() and not line.strip().startswith(("#[", "//", "pub mod ", "mod ", "ghost ")):
            if docs and lost is not None:
                lost.append(i + 1)
            docs = []
        elif line.strip() and not line.strip().startswith(("#[", "//")):
            docs = []
        is_hidden = line.strip() == HIDDEN or is_hidden and line.strip().startswith(("#[", "//"))
        i += 1
    return items


def derives(lines, i):
    """Returns the line of an item's derived traits, if it has one."""
    while lines[i - 1].startswith(("#[", "///")):
        i -= 1
        if lines[i].startswith("#[derive"):
            return [lines[i]]
    return []


def visible(lines):
    """Returns a type's lines without its private fields."""
    if not lines[0].startswith("pub struct") or len(lines) == 1:
        return lines
    # Parameters may have lines of their own.
    head = next(i for i, it in enumerate(lines) if it.endswith("{")) + 1
    public = [it for i, it in enumerate(lines[head:-1], head) if it.startswith("    pub ") or it.startswith("    ///") and any(
        re.match(r"    pub ", later) for later in lines[i:] if not later.startswith("    ///"))]
    if not any(it.startswith("    pub ") for it in public):
        return [*lines[:head - 1], lines[head - 1] + " .. }"]
    return [*lines[:head], *public, lines[-1]]


def ghost_members(lines):
    """Returns what contracts of a trait speak of, with docs, as its module shows it."""
    members, docs, i = [], [], 0
    while i < len(lines):
        if lines[i].startswith("    ///"):
            docs.append(lines[i])
        elif re.match(r"    ghost (?!use)", lines[i]):
            last = next(j for j in range(i, len(lines)) if lines[j].endswith(";"))
            members += [*docs, *lines[i : last + 1]]
            docs, i = [], last
        elif not lines[i].startswith("    #["):
            docs = []
        i += 1
    return members


def pinned(lines):
    """Returns the types and the ghost members that an impl sets, by name, each with its lines."""
    found, i = {}, 0
    while i < len(lines):
        match = re.match(r"    (?:ghost|type) (?!use\b)(\w+) = ", lines[i])
        if match:
            last = next(j for j in range(i, len(lines)) if lines[j].endswith(";"))
            found[match.group(1)] = lines[i : last + 1]
            i = last
        i += 1
    return found


def printed_texts(lines, item):
    """Returns the texts that an impl of `Display` prints as they stand there, one after the other."""
    body = "\n".join(lines[item.first : item.last + 1])
    return [one or other for one, other in TEXT.findall(body)]


def base_of(name):
    """Returns the type that an impl is for, without its parameters; of an array `array`, as its module in std is named."""
    of = name.partition(" for ")[2] or name
    if of.startswith("["):
        return "array"
    words = re.findall(r"[\w:]+", re.sub(r"'\w+|&|\bmut\b", " ", of))
    return words[0].rpartition("::")[2] if words else name


def words_of(text):
    """Returns the file that defines each word which a source file imports from specs/ of the library."""
    found = {}
    for crate, module, names in IMPORT.findall(text):
        path = f"crates/{crate}/specs/{module.replace('.', '/')}.antt"
        if os.path.exists(os.path.join(ROOT, path)):
            found.update((word.strip(), path) for word in names.split(",") if word.strip())
    return found


def trait_of(name):
    """Returns the trait that an impl is of, without its parameters, or nothing."""
    words = re.findall(r"[\w:]+", name.partition(" for ")[0]) if " for " in name else []
    return words[0].rpartition("::")[2] if words else ""


def is_own(item):
    """Says whether an impl is of the type itself and not of a trait."""
    return " for " not in item.name


def is_shown(owner, member):
    """Says whether a caller sees a member: those of traits, public ones, and those of an impl of a trait that have a contract."""
    if owner.kind == "trait" or member.is_public:
        return True
    has_contract = any(line.lstrip().startswith(("requires", "ensures")) for line in member.head)
    return not is_own(owner) and (has_contract or bool(member.docs))


class Module:
    """A public module: its source file, the names that it exports, and its items by source file."""

    def __init__(self, crate, name, path, exported):
        self.crate, self.name, self.path = crate, name, path
        self.exported = exported
        self.items = []


def title_of(module):
    return f"{module.crate}::{module.name}" if module.name else module.crate


def exported_names(text, with_hidden=False):
    """Returns the names, the new one of `a as b`, that a module passes on from private modules, without hidden ones or with them."""
    lists = [names or name for hidden, _, names, name in REEXPORT.findall(text) if with_hidden or not hidden]
    return {name.rpartition(" as ")[2].strip() for names in lists for name in names.split(",") if name.strip()}


def named_modules(text, with_hidden):
    """Returns the names of the public modules that a file declares, without hidden ones or with them."""
    return [name for hidden, name in PUBLIC_MODULE.findall(text) if with_hidden or not hidden]


def modules_of(crate, with_hidden):
    """Yields each public module of a crate; the crate itself where all its modules are private."""
    root = f"crates/{crate}/src/lib.rt"
    modules = named_modules(text_of(root), with_hidden)
    if not modules:
        yield Module(crate, "", root, exported_names(text_of(root), with_hidden))
    for module in modules:
        yield from submodules(crate, module, f"crates/{crate}/src/{module}.rt", with_hidden)


def submodules(crate, name, path, with_hidden):
    text = text_of(path)
    own = {it.name for it in items_of(text.splitlines()) if it.is_public and (with_hidden or not it.is_hidden)}
    yield Module(crate, name, path, exported_names(text, with_hidden) | own)
    for module in named_modules(text, with_hidden):
        yield from submodules(crate, f"{name}::{module}", f"{path.removesuffix('.rt')}/{module}.rt", with_hidden)


def files_of(module, others):
    """Returns the source files of a module: its own, those below it that are of no other module, and private ones of the crate."""
    if not module.name:
        return paths(module.crate, "src/**/*.rt")
    folder = module.path.removeprefix(f"crates/{module.crate}/").removesuffix(".rt")
    lower = [it.path.removesuffix(".rt") for it in others if it is not module and it.path.startswith(f"crates/{module.crate}/{folder}/")]
    found = [module.path, *paths(module.crate, f"{folder}/**/*.rt")]
    for name in PRIVATE_MODULE.findall(text_of(f"crates/{module.crate}/src/lib.rt")):
        found += [*paths(module.crate, f"src/{name}.rt"), *paths(module.crate, f"src/{name}/**/*.rt")]
    return [path for path in found if not any(path.removesuffix(".rt") == it or path.startswith(it + "/") for it in lower)]


def fill(module, others, with_hidden):
    """Finds the items of a module, each file's own in their order: exported ones, and impls for exported types."""
    for path in files_of(module, others):
        items = [it for it in items_of(text_of(path).splitlines()) if is_listed(it, module.exported, with_hidden)]
        if items:
            module.items.append((path, items))


@functools.lru_cache(maxsize=None)
def private_traits():
    """Returns the names of the library's traits that no public module has."""
    declared = {name for crate in LIBRARY for path in paths(crate, "src/**/*.rt") for name in TRAIT.findall(text_of(path))}
    return declared - {name for crate in LIBRARY for module in modules_of(crate, False) for name in module.exported}


def is_listed(item, exported, with_hidden):
    """Says whether a module has an item: an exported one, or an impl for an exported type or of an exported trait."""
    if item.kind != "impl":
        return item.is_public and item.name in exported and (with_hidden or not item.is_hidden)
    if trait_of(item.name) == "Model" or not with_hidden and trait_of(item.name) in private_traits():
        return False
    if is_own(item):
        return base_of(item.name) in exported and any(it.is_public and (with_hidden or not it.is_hidden) for it in item.members)
    return bool(exported & set(re.findall(r"\w+", item.name)))


def public_modules(crate, with_hidden=False):
    """Returns the public modules of a crate that have items, without what is hidden or with that."""
    found = list(modules_of(crate, with_hidden))
    for module in found:
        fill(module, found, with_hidden)
    return [module for module in found if module.items]


def facade_of(module):
    """Returns the path by which a facade passes a module on, and the names that it has there; a module that it passes on whole has
    none. Of a module that no facade passes on it returns nothing."""
    for crate in FACADES:
        root, own = text_of(f"crates/{crate}/src/lib.rt"), f"crates/{crate}/src/{module.name}.rt"
        passed_on = {f"{path}{name.strip()}" for _, path, names, one in REEXPORT.findall(root) for name in (names or one).split(",")}
        if title_of(module) in passed_on:
            return f"{crate}::{module.name}", None
        if os.path.exists(os.path.join(ROOT, own)) and f"pub use {title_of(module)}::" in text_of(own):
            return f"{crate}::{module.name}", exported_names(text_of(own))
    return None
