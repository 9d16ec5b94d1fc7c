"""The pictures of docs/pictures/: the map of crates, from crates.txt; a slot of each container to scale, from the tables of CHOOSING; the
life of a key of a slot map; and which file answers which goal."""

import collections
import os
import re

from crates import ROOT, below, libraries_of_crates, read, write_text
from reference.drawing import CONTAINER, OTHER, WARNING, Drawing, above, left_of, right_of, under

FOLDER = os.path.join("docs", "pictures")
# The groups of crates.txt that the map has, each with whether its crates are containers.
GROUPS = {"The library: a crate for each container": True, "Several in one": False, "The harness: commands, scripts and the program that runs them": False}
NO_CONTAINER = ("ix_tables", "ix_json")
COLUMN, ROW = 168, 74
PIXELS_A_BYTE = 9


def groups_of_crates():
    """Returns the crates of the groups that the map has, by group."""
    found, group = collections.defaultdict(list), None
    for line in read("crates.txt").decode().splitlines():
        if line.startswith("# "):
            group = line[2:]
        elif line.strip() and group in GROUPS:
            found[group].append(line.partition(":")[0].split()[0])
    return found


def nearest(crate, uses, shown):
    """Returns the crates that a crate stands on, without those that another one of them stands on."""
    lower = [it for it in uses[crate] if it in shown]
    farther = {it for one in lower for it in below(one, uses)}
    return [it for it in lower if it not in farther]


def levels_of(shown, uses):
    """Returns the crates by level: each is one above the highest that it stands on, and near those in its row."""
    level, middle, rows = {}, {}, collections.defaultdict(list)
    for crate in shown:
        level[crate] = max((level[it] + 1 for it in below(crate, uses) if it in level), default=0)
        rows[level[crate]].append(crate)
    for number in sorted(rows):
        lower = {crate: [middle[it] for it in nearest(crate, uses, shown)] for crate in rows[number]}
        rows[number].sort(key=lambda crate: sum(lower[crate]) / len(lower[crate]) if lower[crate] else 0)
        middle.update({crate: place - len(rows[number]) / 2 for place, crate in enumerate(rows[number])})
    return [rows[it] for it in sorted(rows)]


def crates():
    """Returns the map of crates: an arrow leads to each crate that one stands on, unless another one on the way does."""
    uses, groups = libraries_of_crates(), groups_of_crates()
    shown = [crate for group in GROUPS for crate in groups[group]]
    containers = {crate for group in GROUPS if GROUPS[group] for crate in groups[group]} - {*NO_CONTAINER}
    rows = levels_of(shown, uses)
    width = COLUMN * max(map(len, rows))
    drawing = Drawing(width, ROW * len(rows), "The crates. An arrow leads to a crate that another one stands on.")
    boxes = {}
    for number, row in enumerate(reversed(rows)):
        left = (width - COLUMN * len(row)) / 2
        for place, crate in enumerate(row):
            fill = CONTAINER if crate in containers else OTHER
            boxes[crate] = drawing.box(left + COLUMN * place + 6, ROW * number + 8, COLUMN - 12, crate, fill)
    for crate in shown:
        for it in nearest(crate, uses, shown):
            drawing.arrow(under(boxes[crate]), above(boxes[it]))
    return drawing


def rows_of(heading):
    """Yields the cells of each row of the tables below a heading of CHOOSING."""
    text = read("docs/CHOOSING.md").decode().partition(f"## {heading}\n")[2].partition("\n## ")[0]
    for line in re.findall(r"^\|(.*)\|$", text, re.M):
        yield [cell.strip() for cell in line.split("|")]


def slots():
    """Returns the bytes of a slot of each container, inline and allocated, and of other crates, for a `u64` or a pair of two."""
    bars = []
    for cells in rows_of("By how many bytes it takes"):
        name = re.sub(r"\[([^\]]*)\]\([^)]*\)", r"\1", cells[0].replace("`", "")).partition(",")[0]
        sizes = {"size": 16 if "map, of" in cells[0] else 8, "align": 8}
        if re.fullmatch(r"(?:size|\d+)(?: \+ (?:align|\d+))*", cells[1]) and len(cells) == 4:
            bars += [(f"{name}, {kind}", sum(sizes.get(it) or int(it) for it in cell.split(" + ")), CONTAINER) for kind, cell in zip(("inline", "allocated"), cells[1:3])]
        elif len(cells) == 3 and (most := re.search(r"([\d.]+)(?:,|$)", cells[1])):
            bars.append((name + (", at most" if " to " in cells[1] else ""), float(most[1]), OTHER))
    drawing = Drawing(900, 26 * len(bars) + 16, "The bytes of one slot of each container, for a u64 or for a pair of two, to scale.")
    for number, (name, size, fill) in enumerate(bars):
        drawing.text(8, 26 * number + 24, name)
        drawing.box(270, 26 * number + 10, size * PIXELS_A_BYTE, "", fill, 18)
        drawing.text(278 + size * PIXELS_A_BYTE, 26 * number + 24, f"{size:g}")
    return drawing


def key():
    """Returns the life of a key of a slot map."""
    drawing = Drawing(900, 190, "A slot of a slot map, and what becomes of its keys: each removal makes a key dead for good.")
    texts = ("vacant, generation 0", "held by key (3, 0)", "vacant, generation 1", "held by key (3, 1)")
    boxes = [drawing.box(10 + 225 * i, 40, 165, text, CONTAINER if "held" in text else OTHER) for i, text in enumerate(texts)]
    for one, next_one, word in zip(boxes, boxes[1:], ("insert", "remove", "insert")):
        drawing.arrow(right_of(one), left_of(next_one), word)
    drawing.text(10, 24, "Slot 3:")
    dead = drawing.box(460, 130, 165, "key (3, 0) is dead", WARNING)
    drawing.arrow(under(boxes[2]), above(dead))
    drawing.text(10, 150, "A dead key finds nothing, also if its slot is held again.")
    drawing.text(640, 150, "After the last generation")
    drawing.text(640, 168, "the slot is retired.")
    return drawing


def answers():
    """Returns which file answers which goal of a function."""
    drawing = Drawing(900, 250, "The files of a function's proof: what each of them has, and which goals it answers.")
    source = drawing.box(10, 100, 190, "src/cache.rt: put", CONTAINER)
    files = (
        ("proofs/cache/Cache/put/Invariants.antt", "invariant-loop-.., decreases-loop-..", "you choose what holds"),
        ("proofs/cache/Cache/put/Answers.antt", "each other open goal", "you prove it"),
    )
    boxes = []
    for number, (name, goals, what) in enumerate(files):
        box = drawing.box(470, 60 + 90 * number, 320, name, OTHER)
        drawing.arrow(right_of(source), left_of(box))
        drawing.text(472, 60 + 90 * number - 8, f"{goals}: {what}")
        boxes.append(box)
    specs = drawing.box(10, 20, 190, "specs/InStep.antt", OTHER)
    drawing.arrow(above(source), under(specs))
    drawing.text(210, 40, "words of clauses and ghost fields")
    lemmas = drawing.box(470, 212, 320, "proofs/Lists.antt: lemmas of yours", OTHER)
    drawing.arrow(under(boxes[1]), above(lemmas))
    return drawing


PICTURES = {"crates": crates, "slots": slots, "key": key, "answers": answers}


def check():
    """Returns what is wrong."""
    paths = {name: os.path.join(FOLDER, f"{name}.svg") for name in PICTURES}
    have = {name: read(path).decode() if os.path.exists(os.path.join(ROOT, path)) else "" for name, path in paths.items()}
    return [f"{paths[name]}: it is another than reference/pictures.py draws" for name in PICTURES if have[name] != PICTURES[name]().svg()]


def write():
    os.makedirs(os.path.join(ROOT, FOLDER), exist_ok=True)
    for name, draw in PICTURES.items():
        write_text(os.path.join(FOLDER, f"{name}.svg"), draw().svg())
