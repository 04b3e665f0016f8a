"""The lines of proof blocks and chunk blocks (docs/FORMATS.md)."""
import re
from typing import NamedTuple, Optional

from jellystore.hashes import Entry

MAX_LINE = 8_500
MAX_NUMBER = 2**64 - 1
MAX_SIBLINGS = 256
MAX_COUNTED = 65_535
MAX_ENTRIES = 1_000

NUMBER = rb"(0|[1-9][0-9]{0,19})"
HASH = rb"([0-9a-f]{64})"
VALUE = rb"=((?:[0-9a-f]{2}){0,4096})"
HEAD = rb"(?:" + NUMBER + rb" ok )?"

PROOF_LINE = re.compile(HEAD + rb"proof " + NUMBER)
NAME_LINE = re.compile(rb"name ((?:[0-9a-f]{2}){1,128})")
CLAIM_LINE = re.compile(rb"claim (?:none|" + VALUE + rb")")
LEAF_LINE = re.compile(rb"leaf (?:none|" + HASH + rb" " + HASH + rb")")
SIDE_LINE = re.compile(rb"side " + HASH)
CHUNK_LINE = re.compile(HEAD + rb"chunk " + NUMBER + rb" " + NUMBER + rb" " + NUMBER)
ENTRY_LINE = re.compile(rb"entry " + HASH + rb" " + VALUE)


class NoMatch(Exception):
    """A line isn't as it has to be, or is missing: its place, from 0."""

    def __init__(self, place: int) -> None:
        super().__init__(place)
        self.place = place


class ProofBlock(NamedTuple):
    """A name, its value or None, the key of the leaf and the hash of its value or None, and the siblings, the lowest first."""

    name: bytes
    value: Optional[bytes]
    leaf: Optional[Entry]
    siblings: list[bytes]


class ChunkBlock(NamedTuple):
    """Keys with their values, the depth of the last one, and the siblings on the right of its way, the lowest first."""

    entries: list[Entry]
    depth: int
    siblings: list[bytes]


def lines_of(text: bytes) -> list[bytes]:
    """The lines of a text. Each ends with a line feed, and the last one may lack it."""
    lines = text.split(b"\n")
    return lines if lines[-1] else lines[:-1]


def _match(pattern: re.Pattern[bytes], lines: list[bytes], place: int) -> re.Match[bytes]:
    """The match of a line at a place."""
    line = lines[place] if place < len(lines) else None
    found = pattern.fullmatch(line) if line is not None and len(line) <= MAX_LINE else None
    if found is None:
        raise NoMatch(place)
    return found


def _numbers(pattern: re.Pattern[bytes], lines: list[bytes], place: int, most: list[int]) -> list[int]:
    """The numbers of a block's first line, each up to its limit."""
    reply, *words = _match(pattern, lines, place).groups()
    numbers = [int(word) for word in words]
    if int(reply or 0) > MAX_NUMBER or any(number > limit for number, limit in zip(numbers, most)):
        raise NoMatch(place)
    return numbers


def _bytes(digits: bytes) -> bytes:
    return bytes.fromhex(digits.decode("ascii"))


def _sides(lines: list[bytes], start: int, count: int) -> list[bytes]:
    return [_bytes(_match(SIDE_LINE, lines, place)[1]) for place in range(start, start + count)]


def proof_block(text: bytes) -> ProofBlock:
    """The one block of at most 256 siblings that a text is, with nothing after it. Raises NoMatch."""
    lines = lines_of(text)
    (count,) = _numbers(PROOF_LINE, lines, 0, [MAX_SIBLINGS])
    name, claim, leaf = (_match(pattern, lines, place) for place, pattern in enumerate((NAME_LINE, CLAIM_LINE, LEAF_LINE), 1))
    siblings = _sides(lines, 4, count)
    if len(lines) > 4 + count:
        raise NoMatch(4 + count)
    value = None if claim[1] is None else _bytes(claim[1])
    return ProofBlock(_bytes(name[1]), value, None if leaf[1] is None else (_bytes(leaf[1]), _bytes(leaf[2])), siblings)


def chunk_block(lines: list[bytes], start: int) -> ChunkBlock:
    """The chunk block whose first line stands at a place. Raises NoMatch."""
    count, depth, siblings = _numbers(CHUNK_LINE, lines, start, [MAX_ENTRIES, MAX_COUNTED, MAX_COUNTED])
    found = (_match(ENTRY_LINE, lines, place) for place in range(start + 1, start + 1 + count))
    entries = [(_bytes(line[1]), _bytes(line[2])) for line in found]
    return ChunkBlock(entries, depth, _sides(lines, start + 1 + count, siblings))


def chunk_length(block: ChunkBlock) -> int:
    """How many lines a chunk block has."""
    return 1 + len(block.entries) + len(block.siblings)
