"""What docs/FORMATS.md, "Landing blocks", says of a store that leads and of one that follows, over plain maps: for scripts that test the
program.

Nothing is shared with the program. A leader is a store of plain_store.py that writes down what it lands. A follower knows its newest
map and the roots that it has recorded; that a map has more than 2^62 entries is left out, since none is large enough for it.
"""
import re

from plain_store import MAX_KEYS, MAX_LINE, PLACES, Answers, Map, Refused, Store, command_in, number_in, value_in

LAST_VERSION = 2**64 - 2


# ---- a store that leads


def landing_block(version, root, batch):
    """The lines that tell of a version."""
    changes = [f"del {key.hex()}" if value is None else f"put {key.hex()} ={value.hex()}" for key, value in sorted(batch.items())]
    return [f"landing {version} {root} {len(changes)}", *changes]


def text_of(blocks):
    """The text of blocks, each a list of lines."""
    return "".join(line + "\n" for block in blocks for line in block).encode("latin-1")


class Alone:
    """The part of a session that is alone on its store: what is pending, and its pins."""

    def __init__(self):
        self.pending, self.pins = {}, [None] * PLACES

    def floor_after(self, store, line):
        """The floor after a line."""
        command = command_in(line) if len(line) <= MAX_LINE else None
        if command is None or command[0] != "prune":
            return store.floor
        return max(store.floor, min([*command[1], *(pin for pin in self.pins if pin is not None)]))


class Leader(Store):
    """A store that writes down the block of each landing."""

    def __init__(self):
        super().__init__()
        self.blocks = []

    def land(self, batch):
        super().land(batch)
        self.blocks.append(landing_block(self.head, self.newest.root, batch))

    def lead(self, lines):
        """Does the lines of a script in a run of their own, and returns the blocks of what they land."""
        own, before = Alone(), len(self.blocks)
        for line in lines:
            Answers(self, own, own.floor_after(self, line)).answer(line).do()
        self.retired, self.forks, self.made = self.floor, {}, 0
        return self.blocks[before:]


# ---- blocks that are read


class BadLine(Exception):
    """The line with this number is bad, or missing at the end."""


def words_in(line, kind, count):
    """The words of a line after the first, if it is this one and so many follow it."""
    word, *rest = line.split(" ")
    return rest if len(line) <= MAX_LINE and word == kind and len(rest) == count else None


def hash_in(word):
    return bytes.fromhex(word) if re.fullmatch("[0-9a-f]{64}", word) else None


def head_in(line):
    """The version, the root and the number of changes that the first line of a block tells."""
    words = words_in(line, "landing", 3)
    if words is None:
        return None
    version, root, count = number_in(words[0]), hash_in(words[1]), number_in(words[2], MAX_KEYS)
    return None if None in (version, root, count) else (version, root.hex(), count)


def change_in(line):
    """The key of a change and its value, None if it is removed; or None if the line is no change."""
    put, removed = words_in(line, "put", 2), words_in(line, "del", 1)
    key = hash_in((put or removed or [""])[0])
    value = value_in(put[1]) if put else None
    return None if key is None or put and value is None else (key, value)


def changes_in(lines, place, count):
    """The changes of a block that follow its first line, whose number is given."""
    batch, last = {}, b""
    for number in range(place + 1, place + count + 1):
        change = change_in(lines[number - 1]) if number <= len(lines) else None
        if change is None or change[0] <= last:
            raise BadLine(number)
        last, batch[last] = change[0], change[1]
    return batch


def blocks_in(text):
    """The whole blocks of a text, one after another: the number of its first line, version, root and batch of each."""
    lines = text.decode("latin-1").split("\n")
    if lines[-1] == "":
        lines.pop()
    place = 1
    while place <= len(lines):
        head = head_in(lines[place - 1])
        if head is None:
            raise BadLine(place)
        version, root, count = head
        yield place, version, root, changes_in(lines, place, count)
        place += count + 1


# ---- a store that follows


class Follower:
    """A store that follows, from one version on: the roots from the base on, and the newest map."""

    def __init__(self, base=0, newest=Map({})):
        self.base, self.newest, self.roots = base, newest, [newest.root]

    @property
    def head(self):
        return self.base + len(self.roots) - 1

    def land(self, found):
        self.newest = found
        self.roots.append(found.root)

    def take(self, version, root, batch):
        """Lands what a block tells of, if its version isn't there."""
        if version < self.base:
            raise Refused(f"below {self.base}")
        if version <= self.head:
            self.compare(version, root, self.roots[version - self.base])
            return
        if version > self.head + 1:
            raise Refused(f"gap {self.head}")
        if self.head == LAST_VERSION:
            raise Refused("last")
        found = self.newest.after(batch)
        self.compare(version, root, found.root)
        self.land(found)

    @staticmethod
    def compare(version, announced, found):
        if announced != found:
            raise Refused(f"differs {version} {announced} {found}")

    def follow(self, text):
        """The status of a run that follows a text, what it writes, and its line on standard error."""
        first = None
        try:
            for first, *told in blocks_in(text):
                self.take(*told)
        except BadLine as at:
            return 10, b"", f"unfollowed line {at}"
        except Refused as why:
            return 10, b"", f"unfollowed block {first} {why}"
        return 0, f"followed {self.head} {self.roots[-1]}\n".encode(), ""
