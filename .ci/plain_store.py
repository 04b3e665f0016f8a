"""What docs/FORMATS.md says of a store, of the replies to lines, and of blocks of many claims, over plain maps: for scripts that
test the program.

Nothing is shared with the program. Maps are dictionaries, a version is a whole map, and roots, proofs and nodes are counted
from all entries. The refusal `last` is left out, since no run is long enough for it.
"""
import hashlib
import re
from functools import cached_property, lru_cache
from typing import Callable, NamedTuple, Optional

MAX_LINE, MAX_NAME, MAX_VALUE, MAX_CHUNK, MAX_NUMBER = 8500, 128, 4096, 1000, 2**64 - 1
MAX_KEYS, MAX_FORKS, MAX_ASKED, PLACES = 10_000, 1_024, 10_000, 8


# ---- maps


def sha(data):
    return hashlib.sha256(data).digest()


@lru_cache(maxsize=None)
def key_of(name):
    return sha(b"\4" + name)


@lru_cache(maxsize=None)
def value_hash(value):
    return sha(b"\3" + value)


@lru_cache(maxsize=None)
def leaf_hash(entry):
    return sha(b"\1" + entry[0] + value_hash(entry[1]))


def pair_hash(left, right):
    return sha(b"\2" + left + right)


EMPTY = sha(b"\0")


def bit(key, place):
    return key[place // 8] >> (7 - place % 8) & 1


def halves(entries, depth):
    """The entries whose bit at a depth is 0, and those whose bit is 1."""
    return [e for e in entries if not bit(e[0], depth)], [e for e in entries if bit(e[0], depth)]


def root_of(entries, depth=0):
    """The root of entries whose keys agree in their first bits, as many as the depth."""
    if not entries:
        return EMPTY
    if len(entries) == 1:
        return leaf_hash(entries[0])
    zeros, ones = halves(entries, depth)
    return pair_hash(root_of(zeros, depth + 1), root_of(ones, depth + 1))


def proof_of(entries, key):
    """The entry that stands alone on a key's way, if there is one, and the hashes beside the way, the lowest first."""
    siblings = []
    while len(entries) > 1:
        depth = len(siblings)
        parts = halves(entries, depth)
        entries = parts[bit(key, depth)]
        siblings.append(root_of(parts[1 - bit(key, depth)], depth + 1))
    return (entries[0] if entries else None), siblings[::-1]


def by_nibble(entries, depth):
    """The entries under each nibble at a depth."""
    parts = {}
    for entry in entries:
        parts.setdefault(entry[0].hex()[depth], []).append(entry)
    return parts


def fresh_nodes(old, new, depth=0):
    """How many nodes the new entries under a path have that the old ones don't have with the same entries under them. The
    node at the path itself counts."""
    if len(new) < 2:
        return 1
    before = by_nibble(old, depth) if len(old) > 1 else {}
    parts = by_nibble(new, depth)
    return 1 + sum(fresh_nodes(before.get(n, []), part, depth + 1) for n, part in parts.items() if before.get(n) != part)


class Map:
    """A map from keys to values."""

    def __init__(self, values):
        self.values = values

    @cached_property
    def entries(self):
        """The entries, in the order of their keys."""
        return sorted(self.values.items())

    @cached_property
    def root(self):
        return root_of(self.entries).hex()

    @cached_property
    def nodes(self):
        """How many nodes the map has."""
        return fresh_nodes([], self.entries)

    def after(self, batch):
        """The map after the changes of a batch, in which None removes a key."""
        changed = {**self.values, **batch}
        return Map({key: value for key, value in changed.items() if value is not None})


# ---- the store


class Refused(Exception):
    """The line is refused with these words."""


class Fork(NamedTuple):
    parent: Optional[int]
    batch: dict


class Store:
    """What the entries so far have made of a new store. Every version stays, whatever is given up."""

    def __init__(self):
        self.versions, self.fresh = [Map({})], [0]
        self.floor = self.retired = self.count = self.made = 0
        self.generation = 1
        self.forks = {}

    @property
    def head(self):
        return len(self.versions) - 1

    @property
    def newest(self):
        return self.versions[-1]

    @property
    def kept(self):
        """How many nodes are kept: those of the floor's map, and the fresh ones of each later version."""
        return self.versions[self.floor].nodes + sum(self.fresh[self.floor + 1 :])

    def chain(self, fork):
        """A fork with those that it stands on, the lowest first."""
        found = []
        while fork is not None:
            found.insert(0, fork)
            fork = self.forks[fork].parent
        return found

    def on(self, fork):
        """The forks that stand on a fork, and it."""
        return [other for other in self.forks if fork in self.chain(other)]

    def fork_map(self, fork):
        found = self.newest
        for id in self.chain(fork):
            found = found.after(self.forks[id].batch)
        return found

    def land(self, batch):
        old, new = self.newest, self.newest.after(batch)
        self.versions.append(new)
        self.fresh.append(fresh_nodes(old.entries, new.entries))

    def land_fork(self, fork):
        for id in self.chain(fork):
            self.land(self.forks[id].batch)
        stay = {id: self.forks[id] for id in self.on(fork) if id != fork}
        self.forks = {id: Fork(None if it.parent == fork else it.parent, it.batch) for id, it in stay.items()}

    def check_version(self, version):
        if version > self.head:
            raise Refused(f"future {self.head}")
        if version < self.retired:
            raise Refused(f"retired {self.retired}")

    def check_fork(self, fork):
        if fork >= self.made:
            raise Refused("unknown")
        if fork not in self.forks:
            raise Refused("gone")


# ---- the grammar


def number_in(word, most=MAX_NUMBER):
    return int(word) if re.fullmatch("0|[1-9][0-9]{0,19}", word) and int(word) <= most else None


def bytes_in(word, least, most):
    found = bytes.fromhex(word) if re.fullmatch("([0-9a-f]{2})*", word) else None
    return found if found is not None and least <= len(found) <= most else None


def name_in(word):
    return bytes_in(word, 1, MAX_NAME)


def value_in(word):
    return bytes_in(word[1:], 0, MAX_VALUE) if word[:1] == "=" else None


def count_in(word):
    return number_in(word, MAX_CHUNK) or None


class Base(NamedTuple):
    """What is read: the head, or a version (v), a fork (f) or a place (p) by its number."""

    kind: str
    number: Optional[int] = None


def base_in(word, kinds="vfp"):
    if word == "head":
        return Base("head")
    number = number_in(word[1:]) if word[:1] and word[0] in kinds else None
    return None if number is None else Base(word[0], number)


def stored_in(word):
    return base_in(word, "vp")


def parent_in(word):
    return base_in(word, "f")


def fork_in(word):
    base = parent_in(word)
    return base.number if base else None


GRAMMAR = {
    "put": (name_in, value_in), "del": (name_in,), "commit": (), "fork": (parent_in,), "land": (fork_in,), "drop": (fork_in,),
    "get": (base_in, name_in), "root": (base_in,), "prove": (stored_in, name_in), "chunk": (stored_in, number_in, count_in),
    "count": (stored_in,), "nth": (stored_in, number_in), "pin": (number_in,), "unpin": (number_in,), "prune": (number_in,),
    "compact": (), "status": (),
}


def command_in(line):
    """The command's word and what follows it, or None if the line is no command."""
    word, *rest = line.split(" ")
    readers = GRAMMAR.get(word)
    if readers is None or len(readers) != len(rest):
        return None
    given = [read(it) for read, it in zip(readers, rest)]
    return None if None in given else (word, given)


# ---- blocks of many claims


def claim_word(value):
    return "none" if value is None else f"={value.hex()}"


def leaf_words(entry):
    return "none" if entry is None else f"{entry[0].hex()} {value_hash(entry[1]).hex()}"


def names_in(lines):
    """The names of an input of these lines."""
    names = []
    for number, line in enumerate(lines, 1):
        name = name_in(line)
        if name is None or number > MAX_ASKED:
            raise Refused(f"line {number}")
        names.append(name)
    return names


def items_of(entries, keys, depth=0):
    """The lines of the tree that shows of entries what they have of keys, all of which agree in their first bits."""
    if not keys:
        return [f"rest {root_of(entries, depth).hex()}"]
    if len(entries) < 2:
        return [f"end {leaf_words(entries[0] if entries else None)}"]
    parts, asked = halves(entries, depth), [[key for key in keys if bit(key, depth) == side] for side in (0, 1)]
    return ["fork", *items_of(parts[0], asked[0], depth + 1), *items_of(parts[1], asked[1], depth + 1)]


def many_block(found, names):
    """The block of what a map has of names. Of names with one key the first stays."""
    named = {}
    for name in names:
        named.setdefault(key_of(name), name)
    keys = sorted(named)
    claims = [f"claim {named[key].hex()} {claim_word(found.values.get(key))}" for key in keys]
    items = items_of(found.entries, keys)
    return [f"many {len(claims)} {len(items)}", *claims, *items]


class Part(NamedTuple):
    """A part of a tree: its root, and its two parts, or its leaf if it is an end with one, or nothing more."""

    root: bytes
    parts: Optional[tuple] = None
    leaf: Optional[tuple] = None
    is_rest: bool = False


def part_of(items, forks=256):
    """The part that the next items are, in which so many forks may stand one below another; or None."""
    word, *rest = next(items, "none").split(" ")
    hashes = [bytes.fromhex(it) for it in rest if it != "none"]
    if word == "rest":
        return Part(hashes[0], is_rest=True)
    if word == "end":
        return Part(sha(b"\1" + b"".join(hashes)), leaf=tuple(hashes)) if hashes else Part(EMPTY)
    zeros = part_of(items, forks - 1) if word == "fork" and forks else None
    ones = part_of(items, forks - 1) if zeros else None
    return Part(pair_hash(zeros.root, ones.root), (zeros, ones)) if ones else None


def single_proof(top, key):
    """The leaf at the end of a key's path, if there is one, and the roots of the parts beside the path, the lowest first; or None if
    the path ends in a rest."""
    siblings = []
    while top.parts:
        side = bit(key, len(siblings))
        siblings.append(top.parts[1 - side].root)
        top = top.parts[side]
    return None if top.is_rest else (top.leaf, siblings[::-1])


def proof_fault(root, key, value, leaf, siblings):
    """The number of the first check that refuses what is claimed of a key by a proof; or None."""
    depth = len(siblings)
    if depth > 256:
        return 1
    if leaf != (key, value_hash(value)) if value is not None else leaf and leaf[0] == key:
        return 2
    if value is None and leaf and any(bit(leaf[0], place) != bit(key, place) for place in range(depth)):
        return 3
    found = sha(b"\1" + leaf[0] + leaf[1]) if leaf else EMPTY
    for place, side in enumerate(siblings, 1):
        found = pair_hash(side, found) if bit(key, depth - place) else pair_hash(found, side)
    return None if found == root else 4


def many_verdict(root, block):
    """The line on a block of many claims whose lines all match, under a root."""
    count = int(block[0].split(" ")[1])
    claims, items = [line.split(" ")[1:] for line in block[1 : count + 1]], iter(block[count + 1 :])
    top = part_of(items)
    if top is None or next(items, None) is not None:
        return "refused 1"
    keys = [key_of(bytes.fromhex(name)) for name, _ in claims]
    proofs = [single_proof(top, key) for key in keys]
    if None in proofs:
        return f"refused 2 {proofs.index(None) + 1}"
    values = [value_in(word) for _, word in claims]
    faults = [proof_fault(root, key, value, *proof) for key, value, proof in zip(keys, values, proofs)]
    wrong = next((place for place, fault in enumerate(faults, 1) if fault), None)
    return f"refused 3 {wrong} {faults[wrong - 1]}" if wrong else "accepted"


# ---- answers


class Answer(NamedTuple):
    """The reply without its number, the lines of its block, what it does, and the entry after its owner, if it gives one."""

    reply: str
    block: list = []
    do: Callable = lambda: None
    entry: Optional[str] = None


class Answers:
    """The answers to the commands of one session over a store, at one time. A pruning gets the floor that is given."""

    def __init__(self, store, own, floor):
        self.store, self.own, self.floor = store, own, floor

    def answer(self, line):
        """The answer to a line. A refused line does nothing."""
        if len(line) > MAX_LINE:
            return Answer("no long")
        command = command_in(line)
        if command is None:
            return Answer("no syntax")
        word, given = command
        try:
            return getattr(self, "to_" + word)(*given)
        except Refused as why:
            return Answer(f"no {why}")

    def map_at(self, base):
        if base.kind == "head":
            return self.store.newest
        if base.kind == "v":
            self.store.check_version(base.number)
            return self.store.versions[base.number]
        if base.kind == "f":
            self.store.check_fork(base.number)
            return self.store.fork_map(base.number)
        return self.store.versions[self.pinned(base.number)]

    def pinned(self, place):
        if place >= PLACES or self.own.pins[place] is None:
            raise Refused("nopin")
        return self.own.pins[place]

    def changed(self, name, value):
        key, pending = key_of(name), self.own.pending
        if key not in pending and len(pending) >= MAX_KEYS:
            raise Refused("pending")
        return Answer(f"ok pending {len(pending | {key: value})}", do=lambda: pending.update({key: value}))

    def to_put(self, name, value):
        return self.changed(name, value)

    def to_del(self, name):
        return self.changed(name, None)

    def taken(self):
        """What was pending, of which nothing is pending then."""
        batch, self.own.pending = self.own.pending, {}
        return batch

    def to_commit(self):
        version, root = self.store.head + 1, self.store.newest.after(self.own.pending).root

        def do():
            self.store.land(self.taken())
            self.store.forks = {}

        return Answer(f"ok commit {version} {root}", do=do, entry=f"landed {version} {root} head")

    def to_fork(self, base):
        if base.kind == "f":
            self.store.check_fork(base.number)
        if len(self.store.forks) >= MAX_FORKS:
            raise Refused("forksfull")
        id, root = self.store.made, self.map_at(base).after(self.own.pending).root

        def do():
            self.store.forks[id] = Fork(base.number, self.taken())
            self.store.made += 1

        on = "head" if base.kind == "head" else f"f{base.number}"
        return Answer(f"ok fork f{id} {root}", do=do, entry=f"made f{id} {on} {root}")

    def to_land(self, id):
        self.store.check_fork(id)
        chain = self.store.chain(id)
        keys = sum(len(self.store.forks[it].batch) for it in chain)
        if keys > MAX_KEYS:
            raise Refused(f"keys {keys}")
        version, root = self.store.head + len(chain), self.store.fork_map(id).root
        return Answer(f"ok land {version} {root}", do=lambda: self.store.land_fork(id), entry=f"landed {version} {root} f{id}")

    def to_drop(self, id):
        self.store.check_fork(id)
        gone = self.store.on(id)

        def do():
            self.store.forks = {other: it for other, it in self.store.forks.items() if other not in gone}

        return Answer(f"ok drop {len(gone)}", do=do, entry=f"dropped f{id}")

    def to_get(self, base, name):
        value = self.map_at(base).values.get(key_of(name))
        return Answer("ok none" if value is None else f"ok value ={value.hex()}")

    def to_root(self, base):
        return Answer(f"ok root {self.map_at(base).root}")

    def to_prove(self, base, name):
        found = self.map_at(base)
        leaf, siblings = proof_of(found.entries, key_of(name))
        claim = claim_word(found.values.get(key_of(name)))
        block = [f"name {name.hex()}", f"claim {claim}", f"leaf {leaf_words(leaf)}"] + [f"side {it.hex()}" for it in siblings]
        return Answer(f"ok proof {len(siblings)}", block)

    def to_chunk(self, base, start, count):
        entries = self.map_at(base).entries
        if start >= len(entries):
            raise Refused(f"range {len(entries)}")
        chunk = entries[start : start + count]
        last = chunk[-1][0]
        siblings = proof_of(entries, last)[1]
        depth = len(siblings)
        right = [it for place, it in enumerate(siblings) if not bit(last, depth - 1 - place)]
        block = [f"entry {key.hex()} ={value.hex()}" for key, value in chunk] + [f"side {it.hex()}" for it in right]
        return Answer(f"ok chunk {len(chunk)} {depth} {len(right)}", block)

    def to_count(self, base):
        return Answer(f"ok count {len(self.map_at(base).entries)}")

    def to_nth(self, base, place):
        entries = self.map_at(base).entries
        if place >= len(entries):
            raise Refused(f"range {len(entries)}")
        return Answer(f"ok nth {entries[place][0].hex()} ={entries[place][1].hex()}")

    def to_pin(self, version):
        self.store.check_version(version)
        if None not in self.own.pins:
            raise Refused("pinsfull")
        place = self.own.pins.index(None)
        return Answer(f"ok pin {place}", do=lambda: self.own.pins.__setitem__(place, version))

    def to_unpin(self, place):
        return Answer(f"ok unpin {self.pinned(place)}", do=lambda: self.own.pins.__setitem__(place, None))

    def to_prune(self, bound):
        self.store.check_version(bound)
        floor = self.floor

        def do():
            self.store.retired, self.store.floor = bound, floor

        return Answer(f"ok prune {bound} {floor}", do=do, entry=f"retired {bound} {floor}")

    def to_compact(self):
        generation = self.store.generation + 1

        def do():
            self.store.generation = generation

        return Answer(f"ok compact {generation}", do=do, entry=f"compacted {generation}")

    def to_status(self):
        it = self.store
        return Answer(
            f"ok status base 0 floor {it.floor} retired {it.retired} head {it.head} kept {it.kept} forks {len(it.forks)}"
            f" generation {it.generation}"
        )
