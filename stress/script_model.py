"""A plain model of the program boxes, written from the tables of docs/SCRIPTS.md: the reply line to each line of a script."""

import re

MOST = 2**64 - 1
LAST_GENERATION = 2**32 - 1
LINE = 200
NUMBER = re.compile(rb"0|[1-9][0-9]*")
KEY = re.compile(rb"(0|[1-9][0-9]*):(0|[1-9][0-9]*)")
HEADER = re.compile(rb"(queue|vec|table|slot|flat|text) (?:(fixed) (0|1|3|8)|(heap|arena) (0|[1-9][0-9]*))(?: at (0|[1-9][0-9]*))?")
PRINTED = {9: "\\t", 13: "\\r", 10: "\\n", **{byte: chr(byte) for byte in range(32, 128)}}


class Refused(Exception):
    """A command that the container refuses with an error."""


def some(found, *more):
    return "none" if found is None else " ".join(["some", str(found), *map(str, more)])


def truth(value):
    return "true" if value else "false"


def spaced(words):
    return " ".join(map(str, words)) or "-"


def item_at(items, index):
    return items[index] if index < len(items) else None


class Key:
    """A key of a slot map: the index of a place, and a generation."""

    def __init__(self, index, generation):
        self.index = index
        self.generation = generation

    def __str__(self):
        return f"{self.index}:{self.generation}"


class Container:
    """What all containers have. `commands` says how many words each command takes: a number, or None for any. The first word of
    a command of `with_key` is a key; each other word is a number."""

    commands = {}
    with_key = ()

    def __init__(self, capacity):
        self.capacity = capacity
        self.items = []

    def len(self):
        return len(self.items)

    def reply(self, name, numbers):
        """Returns the reply to a command, or None if the line is no command of this container."""
        plain = {"len": self.len, "empty": lambda: truth(self.len() == 0), "full": lambda: truth(self.is_full()), "show": self.show}
        if name == "capacity" and "capacity" in self.commands:
            plain["capacity"] = lambda: self.capacity
        if name in plain:
            return str(plain[name]()) if not numbers else None
        wanted = self.commands.get(name, -1)
        if wanted == -1 or wanted is not None and len(numbers) != wanted:
            return None
        if any(isinstance(word, Key) != (place == 0 and name in self.with_key) for place, word in enumerate(numbers)):
            return None
        try:
            return getattr(self, "do_" + name)(*numbers)
        except Refused as refused:
            return f"error {refused}"

    def is_full(self):
        return self.len() == self.capacity

    def show(self):
        return spaced(self.items)

    def do_clear(self):
        self.items = []
        return "ok"


class Queue(Container):
    commands = {"push": 1, "over": 1, "pop": 0, "peek": 0, "set": 1, "at": 1, "clear": 0, "capacity": 0}

    def do_push(self, x):
        if self.is_full():
            return "false"
        self.items.append(x)
        return "true"

    def do_over(self, x):
        self.items.append(x)
        return some(self.items.pop(0) if self.len() > self.capacity else None)

    def do_pop(self):
        return some(self.items.pop(0) if self.items else None)

    def do_peek(self):
        return some(item_at(self.items, 0))

    def do_set(self, x):
        if not self.items:
            return "false"
        self.items[0] = x
        return "true"

    def do_at(self, index):
        return some(item_at(self.items, index))


class Vector(Container):
    commands = {"push": 1, "insert": 2, "extend": None, "resize": 2, "pop": 0, "remove": 1, "at": 1, "set": 2, "truncate": 1, "clear": 0, "capacity": 0}

    def ask_room(self, length):
        if length > self.capacity:
            raise Refused("InsertWouldExceedCapacity")

    def do_push(self, x):
        return self.do_extend(x)

    def do_extend(self, *xs):
        self.ask_room(self.len() + len(xs))
        self.items += xs
        return "ok"

    def do_insert(self, index, x):
        self.ask_room(self.len() + 1)
        if index > self.len():
            raise Refused("OutOfBounds")
        self.items.insert(index, x)
        return "ok"

    def do_resize(self, length, x):
        self.ask_room(length)
        self.items = self.items[:length] + [x] * (length - self.len())
        return "ok"

    def do_pop(self):
        return some(self.items.pop() if self.items else None)

    def do_remove(self, index):
        return some(self.items.pop(index) if index < self.len() else None)

    def do_at(self, index):
        return some(item_at(self.items, index))

    def do_set(self, index, x):
        if index >= self.len():
            return "false"
        self.items[index] = x
        return "true"

    def do_truncate(self, length):
        del self.items[length:]
        return "ok"


class SlotTable(Container):
    commands = {"insert": 1, "next": 0, "insert_at": 2, "remove": 1, "get": 1, "set": 2, "contains": 1, "from": 1, "capacity": 0}

    def __init__(self, capacity):
        super().__init__(capacity)
        self.items = {}
        self.free = list(range(capacity))

    def is_full(self):
        return not self.free

    def show(self):
        return spaced(f"{key}={self.items[key]}" for key in sorted(self.items))

    def do_insert(self, x):
        if not self.free:
            return "none"
        key = self.free.pop(0)
        self.items[key] = x
        return some(key)

    def do_next(self):
        return some(self.free[0] if self.free else None)

    def do_insert_at(self, key, x):
        if key >= self.capacity:
            return "false"
        if key not in self.items:
            self.free.remove(key)
        self.items[key] = x
        return "true"

    def do_remove(self, key):
        if key not in self.items:
            return "none"
        self.free.insert(0, key)
        return some(self.items.pop(key))

    def do_get(self, key):
        return some(self.items.get(key))

    def do_set(self, key, x):
        if key not in self.items:
            return "false"
        self.items[key] = x
        return "true"

    def do_contains(self, key):
        return truth(key in self.items)

    def do_from(self, key):
        keys = [it for it in self.items if it >= key]
        return some(min(keys), self.items[min(keys)]) if keys else "none"


class SlotMap(Container):
    """A slot map: a place has a generation, and is free, holds a value, or is retired."""

    commands = {"insert": 1, "next": 0, "insert_at": 2, "remove": 1, "get": 1, "set": 2, "contains": 1, "from": 1, "retired": 0, "capacity": 0}
    with_key = ("remove", "get", "set", "contains")

    def __init__(self, capacity, generation):
        super().__init__(capacity)
        self.items = {}
        self.free = list(range(capacity))
        self.generations = [generation] * capacity

    def is_full(self):
        return not self.free

    def key_of(self, place):
        return Key(place, self.generations[place])

    def is_held(self, key):
        return key.index in self.items and self.generations[key.index] == key.generation

    def show(self):
        return spaced(f"{self.key_of(place)}={self.items[place]}" for place in sorted(self.items))

    def do_insert(self, x):
        if not self.free:
            return "none"
        place = self.free.pop(0)
        self.items[place] = x
        return some(self.key_of(place))

    def do_next(self):
        return some(self.key_of(self.free[0]) if self.free else None)

    def do_insert_at(self, place, x):
        if place in self.free:
            self.free.remove(place)
        elif place in self.items and self.generations[place] < LAST_GENERATION:
            self.generations[place] += 1
        else:
            return "none"
        self.items[place] = x
        return some(self.key_of(place))

    def do_remove(self, key):
        if not self.is_held(key):
            return "none"
        if key.generation < LAST_GENERATION:
            self.generations[key.index] += 1
            self.free.insert(0, key.index)
        return some(self.items.pop(key.index))

    def do_get(self, key):
        return some(self.items[key.index] if self.is_held(key) else None)

    def do_set(self, key, x):
        if not self.is_held(key):
            return "false"
        self.items[key.index] = x
        return "true"

    def do_contains(self, key):
        return truth(self.is_held(key))

    def do_from(self, place):
        places = [it for it in self.items if it >= place]
        return some(self.key_of(min(places)), self.items[min(places)]) if places else "none"

    def do_retired(self):
        return str(self.capacity - len(self.items) - len(self.free))


class FlatMap(Container):
    commands = {"insert": 2, "get": 1, "set": 2, "remove": 1, "contains": 1, "key": 1}

    def __init__(self, capacity):
        super().__init__(capacity)
        self.slots = SlotTable(capacity)

    def len(self):
        return self.slots.len()

    def keys(self):
        return [self.slots.items[slot][0] for slot in sorted(self.slots.items)]

    def show(self):
        return spaced(self.keys())

    def slot_of(self, key):
        return next((slot for slot, pair in self.slots.items.items() if pair[0] == key), None)

    def do_insert(self, key, value):
        if self.slot_of(key) is not None:
            raise Refused("KeyAlreadyExists")
        if self.is_full():
            raise Refused("IsFull")
        self.slots.do_insert((key, value))
        return "ok"

    def do_get(self, key):
        slot = self.slot_of(key)
        return some(None if slot is None else self.slots.items[slot][1])

    def do_set(self, key, value):
        slot = self.slot_of(key)
        if slot is not None:
            self.slots.items[slot] = (key, value)
        return truth(slot is not None)

    def do_remove(self, key):
        slot = self.slot_of(key)
        if slot is None:
            return "none"
        value = self.slots.items[slot][1]
        self.slots.do_remove(slot)
        return some(value)

    def do_contains(self, key):
        return truth(self.slot_of(key) is not None)

    def do_key(self, index):
        return some(item_at(self.keys(), index))


class Text(Container):
    commands = {"push": 1, "append": None, "insert": 2, "insert_bytes": None, "pop": 0, "remove": 1, "remove_range": 2, "find": None, "rfind": None}
    commands |= {"strip_prefix": None, "strip_suffix": None, "drop": 1, "at": 1, "truncate": 1, "clear": 0, "capacity": 0}
    # the commands whose numbers are bytes, from this one on
    bytes_from = {"push": 0, "append": 0, "insert": 1, "insert_bytes": 1, "find": 0, "rfind": 0, "strip_prefix": 0, "strip_suffix": 0, "drop": 0}

    def __init__(self, capacity):
        super().__init__(capacity)
        self.items = b""

    def reply(self, name, numbers):
        first = self.bytes_from.get(name, len(numbers))
        if any(isinstance(number, Key) or number > 255 for number in numbers[first:]) or name == "insert_bytes" and not numbers:
            return None
        return super().reply(name, numbers)

    def show(self):
        return '"' + "".join(PRINTED.get(byte, f"\\x{byte:02x}") for byte in self.items) + '"'

    def do_insert_bytes(self, index, *new):
        if index > self.len():
            raise Refused("IndexPastEnd")
        if self.len() + len(new) > self.capacity:
            raise Refused("InsertWouldExceedCapacity")
        if any(not 1 <= byte <= 127 for byte in new):
            raise Refused("InvalidCharacter")
        self.items = self.items[:index] + bytes(new) + self.items[index:]
        return "ok"

    def do_push(self, byte):
        return self.do_insert_bytes(self.len(), byte)

    def do_append(self, *new):
        return self.do_insert_bytes(self.len(), *new)

    def do_insert(self, index, byte):
        return self.do_insert_bytes(index, byte)

    def take(self, index, count):
        taken = self.items[index : index + count]
        self.items = self.items[:index] + self.items[index + count :]
        return taken

    def do_pop(self):
        return some(self.take(self.len() - 1, 1)[0] if self.items else None)

    def do_remove(self, index):
        return some(self.take(index, 1)[0] if index < self.len() else None)

    def do_remove_range(self, index, count):
        if index + count > self.len():
            return "false"
        self.take(index, count)
        return "true"

    def do_at(self, index):
        return some(item_at(self.items, index))

    def do_find(self, *wanted):
        at = self.items.find(bytes(wanted))
        return some(at if at >= 0 else None)

    def do_rfind(self, *wanted):
        at = self.items.rfind(bytes(wanted))
        return some(at if at >= 0 else None)

    def do_strip_prefix(self, *front):
        is_there = self.items.startswith(bytes(front))
        if is_there:
            self.take(0, len(front))
        return truth(is_there)

    def do_strip_suffix(self, *end):
        is_there = self.items.endswith(bytes(end))
        if is_there:
            self.take(self.len() - len(end), len(end))
        return truth(is_there)

    def do_drop(self, byte):
        self.items = self.items.replace(bytes([byte]), b"")
        return "ok"

    def do_truncate(self, length):
        self.items = self.items[:length]
        return "ok"

    def do_clear(self):
        self.items = b""
        return "ok"


CONTAINERS = {b"queue": Queue, b"vec": Vector, b"table": SlotTable, b"slot": SlotMap, b"flat": FlatMap, b"text": Text}


def container_of(line):
    """Returns the container that a header makes, or None if the line is no header."""
    found = HEADER.fullmatch(line)
    if not found:
        return None
    capacity = int(found[3] or found[5])
    generation = int(found[6] or 0)
    if not found[2] and capacity > 1000 or generation > LAST_GENERATION:
        return None
    if found[1] == b"slot":
        return SlotMap(capacity, generation)
    return None if found[6] else CONTAINERS[found[1]](capacity)


def word_of(word):
    """Returns the number or the key that a word spells, or None if it spells none."""
    if NUMBER.fullmatch(word) and int(word) <= MOST:
        return int(word)
    found = KEY.fullmatch(word)
    if not found or int(found[1]) > MOST or int(found[2]) > LAST_GENERATION:
        return None
    return Key(int(found[1]), int(found[2]))


def command_of(line):
    """Returns the name, and the keys and numbers that a line spells, or None if it spells none."""
    name, *words = line.split(b" ")
    read = [word_of(word) for word in words]
    return (name.decode("latin-1"), read) if name and None not in read else None


def replies_to(script):
    """Returns the reply lines to a script, which is bytes."""
    lines = script.split(b"\n")
    if not lines[-1]:
        lines.pop()
    container, replies = None, []
    for line in lines:
        reply = None
        if len(line) <= LINE and container is None:
            container = container_of(line)
            reply = container and "ready"
        elif len(line) <= LINE:
            spelled = command_of(line)
            reply = spelled and container.reply(*spelled)
        replies.append("?" if reply is None else reply)
    return replies
