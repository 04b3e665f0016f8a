"""The vectors of clients/vectors, by which clients are tested (docs/CLIENTS.md)."""
import os
from typing import IO, Iterator, NamedTuple, Optional

from jellystore.hashes import Entry

FOLDER = os.path.join(os.path.dirname(os.path.dirname(os.path.dirname(os.path.abspath(__file__)))), "vectors")


class Lookup(NamedTuple):
    """A reply to `prove`, and what it shows: `value =VALUE`, `none` or `refused N`."""

    title: str
    root: bytes
    name: bytes
    reply: bytes
    shows: str


class Claim(NamedTuple):
    """A claim in parts, and its verdict, 0 to 4."""

    title: str
    root: bytes
    name: bytes
    value: Optional[bytes]
    leaf: Optional[Entry]
    siblings: list[bytes]
    judged: int


class Leaves(NamedTuple):
    """Keys with the hashes of their values, and their root; or None if the keys don't ascend strictly."""

    title: str
    leaves: list[Entry]
    root: Optional[bytes]


class Text(NamedTuple):
    """Chunk blocks, and what they come to: `whole COUNT`, `not-whole FOUND`, `line I` or `chunk I CODE`."""

    title: str
    root: bytes
    text: bytes
    comes: str


def _after(it: IO[bytes], word: str) -> str:
    """What stands after the word of the next line."""
    line = it.readline().decode("ascii").removesuffix("\n")
    first, _, rest = line.partition(" ")
    if first != word:
        raise ValueError(f"{line!r} in place of {word}")
    return rest


def _hash(it: IO[bytes], word: str) -> bytes:
    return bytes.fromhex(_after(it, word))


def _bytes(it: IO[bytes]) -> bytes:
    """The bytes after a line `bytes N`, or those of a line `hex`."""
    word, _, rest = it.readline().decode("ascii").rstrip("\n").partition(" ")
    if word == "hex":
        return bytes.fromhex(rest)
    text = it.read(int(rest))
    it.readline()
    return text


def _titles(name: str) -> Iterator[tuple[IO[bytes], str]]:
    """The cases of a file by their titles, each read up to its next line."""
    with open(os.path.join(FOLDER, name), "rb") as it:
        while line := it.readline():
            yield it, line.decode("ascii").removeprefix("case ").rstrip("\n")


def lookups() -> list[Lookup]:
    return [Lookup(title, _hash(it, "root"), _hash(it, "name"), _bytes(it), _after(it, "shows")) for it, title in _titles("proofs.txt")]


def _claim(it: IO[bytes], title: str) -> Claim:
    root, count, name = _hash(it, "root"), int(_after(it, "proof")), _hash(it, "name")
    claim, leaf = _after(it, "claim"), _after(it, "leaf")
    siblings = [_hash(it, "side") for _ in range(count)]
    value = None if claim == "none" else bytes.fromhex(claim[1:])
    key, _, hash = leaf.partition(" ")
    return Claim(title, root, name, value, None if leaf == "none" else (bytes.fromhex(key), bytes.fromhex(hash)), siblings, int(_after(it, "judged")))


def claims() -> list[Claim]:
    return [_claim(it, title) for it, title in _titles("claims.txt")]


def _leaves(it: IO[bytes], title: str) -> Leaves:
    rows = [it.readline().decode("ascii").split() for _ in range(int(_after(it, "entries")))]
    root = _after(it, "root")
    return Leaves(title, [(bytes.fromhex(key), bytes.fromhex(hash)) for key, hash in rows], None if root == "unsorted" else bytes.fromhex(root))


def leaves() -> list[Leaves]:
    return [_leaves(it, title) for it, title in _titles("roots.txt")]


def texts() -> list[Text]:
    return [Text(title, _hash(it, "root"), _bytes(it), _after(it, "comes")) for it, title in _titles("chunks.txt")]
