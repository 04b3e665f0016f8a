"""What docs/FORMATS.md says of what a client concludes from a store's replies, over plain lists: for scripts that test clients.

Nothing is shared with the program or with the clients. Maps are lists of entries, and roots are counted from all of them.
"""
from typing import NamedTuple, Optional

from plain_store import MAX_LINE, bit, bytes_in, halves, key_of, leaf_hash, name_in, number_in, pair_hash, proof_fault, root_of, value_in

MOST_SIBLINGS, MOST_COUNTED, MOST_ENTRIES, MOST_DEPTH = 256, 65_535, 1_000, 256
OTHER_NAME, NO_BLOCK = 5, 6


# ---- lines


def lines_of(text):
    """The words of each line; of a line that is too long, None."""
    lines = text.split(b"\n")
    if not lines[-1]:
        lines.pop()
    return [None if len(line) > MAX_LINE else line.decode("latin-1").split(" ") for line in lines]


def without_number(words):
    """The words of a first line after `n ok`, if it begins so."""
    return words[2:] if len(words) > 1 and number_in(words[0]) is not None and words[1] == "ok" else words


def after(keyword, words, count=1):
    """The words after a keyword, if there are so many; or None."""
    return words[1:] if words is not None and len(words) == count + 1 and words[0] == keyword else None


def hash_in(word):
    return bytes_in(word, 32, 32)


def pair_in(words):
    """Two words as hashes, or None."""
    pair = tuple(hash_in(word) for word in words)
    return None if None in pair else pair


# ---- proof blocks


class Block(NamedTuple):
    name: bytes
    value: Optional[bytes]
    leaf: Optional[tuple]
    siblings: list


class Unread(Exception):
    """A line doesn't match; or, with a number, that one of several."""


def need(found):
    if found is None:
        raise Unread
    return found


def claim_in(word):
    """A value, or None for its absence."""
    return None if word == "none" else need(value_in(word))


def leaf_in(words):
    """A leaf, or None for none."""
    if after("leaf", words) == ["none"]:
        return None
    return need(pair_in(need(after("leaf", words, 2))))


def side_in(words):
    return need(hash_in(need(after("side", words))[0]))


def name_of(words):
    return need(name_in(need(after("name", words))[0]))


def value_of(words):
    return claim_in(need(after("claim", words))[0])


def count_in(words, most):
    """How many siblings a block's first line counts."""
    return need(number_in(need(after("proof", without_number(need(words))))[0], most))


def block_in(text):
    """The one proof block of at most 256 siblings that a text is."""
    lines = lines_of(text)
    count = count_in(lines[0] if lines else None, MOST_SIBLINGS)
    if len(lines) != count + 4:
        raise Unread
    return Block(name_of(lines[1]), value_of(lines[2]), leaf_in(lines[3]), [side_in(line) for line in lines[4:]])


def shown(root, name, text):
    """What a reply to `prove` shows of a name under a root: `value =VALUE`, `none`, or `refused N`."""
    try:
        block = block_in(text)
    except Unread:
        return f"refused {NO_BLOCK}"
    if block.name != name:
        return f"refused {OTHER_NAME}"
    fault = proof_fault(root, key_of(name), block.value, block.leaf, block.siblings)
    if fault:
        return f"refused {fault}"
    return "none" if block.value is None else f"value ={block.value.hex()}"


# ---- inputs of `verify`


def root_in(words):
    """The root that a line sets; or None."""
    return hash_in((after("root", without_number(words)) or [""])[0]) if words is not None else None


def block_at(lines, place):
    """The proof block whose first line stands at a place, and the place after it. The line that doesn't match is numbered from 1."""
    readers, found = iter([lambda words: count_in(words, MOST_COUNTED)]), []
    while (reader := next(readers, None)) is not None:
        try:
            found.append(reader(lines[place] if place < len(lines) else None))
        except Unread:
            raise Unread(place + 1) from None
        place += 1
        if len(found) == 1:
            readers = iter([name_of, value_of, leaf_in] + [side_in] * found[0])
    return Block(*found[1:4], found[4:]), place


def verdicts(text):
    """The lines that `verify` writes on a text without blocks of many claims, in which no two claims collide."""
    lines, place, root, written = lines_of(text), 0, None, []
    while place < len(lines):
        found = root_in(lines[place])
        if found is not None:
            root, place = found, place + 1
            continue
        try:
            if root is None:
                raise Unread(place + 1)
            block, place = block_at(lines, place)
            fault = proof_fault(root, key_of(block.name), block.value, block.leaf, block.siblings)
            written.append(f"refused {fault}" if fault else "accepted")
        except Unread as why:
            place = why.args[0]
            written.append(f"syntax {place}")
    return written


# ---- chunk blocks


class Chunk(NamedTuple):
    entries: list
    depth: int
    siblings: list


def head_in(words):
    """The three numbers of a chunk's first line."""
    numbers = need(after("chunk", without_number(need(words)), 3))
    return [need(number_in(word, most)) for word, most in zip(numbers, (MOST_ENTRIES, MOST_COUNTED, MOST_COUNTED))]


def entry_in(words):
    key, value = need(after("entry", words, 2))
    return need(hash_in(key)), need(value_in(value))


def chunk_at(lines, place):
    """The chunk whose first line stands at a place, and the place after it. The line that doesn't match is numbered from 1."""
    readers = iter([head_in])
    found = []
    while (reader := next(readers, None)) is not None:
        try:
            found.append(reader(lines[place] if place < len(lines) else None))
        except Unread:
            raise Unread(place + 1) from None
        if reader is head_in:
            count, depth, siblings = found.pop()
            readers = iter([entry_in] * count + [side_in] * siblings)
        place += 1
    return Chunk(found[:count], depth, found[count:]), place


def chunk_root(entries, depth, siblings):
    """The hash of entries whose last key stands alone below so many bits, with the siblings on the right of its way."""
    key, rest = entries[-1][0], list(siblings)

    def part_at(part, place):
        if place == depth:
            return leaf_hash(part[-1])
        if not bit(key, place):
            sibling = rest.pop()
            return pair_hash(part_at(part, place + 1), sibling)
        zeros, ones = halves(part, place)
        return pair_hash(root_of(zeros, place + 1), part_at(ones, place + 1))

    return part_at(entries, 0)


def zeros_in(key, depth):
    return sum(not bit(key, place) for place in range(depth))


def are_alike(key, other, depth):
    return all(bit(key, place) == bit(other, place) for place in range(depth))


def chunk_fault(root, known, chunk):
    """The number of the first check that refuses a chunk after known entries; or None."""
    if not chunk.entries:
        return 1
    entries = known + chunk.entries
    keys = [key for key, _ in entries]
    if any(key >= later for key, later in zip(keys, keys[1:])):
        return 2
    if chunk.depth > MOST_DEPTH or len(chunk.siblings) != zeros_in(keys[-1], chunk.depth):
        return 3
    if any(are_alike(key, keys[-1], chunk.depth) for key in keys[:-1]):
        return 4
    return None if chunk_root(entries, chunk.depth, chunk.siblings) == root else 5


def come_to(root, text):
    """The result of chunk blocks under a root: `whole COUNT`, `not-whole FOUND`, `line I` or `chunk I CODE`."""
    lines, place, known = lines_of(text), 0, []
    while place < len(lines):
        try:
            chunk, later = chunk_at(lines, place)
        except Unread as why:
            return f"line {why.args[0]}"
        fault = chunk_fault(root, known, chunk)
        if fault:
            return f"chunk {place + 1} {fault}"
        known, place = known + chunk.entries, later
    found = root_of(known)
    return f"whole {len(known)}" if found == root else f"not-whole {found.hex()}"
