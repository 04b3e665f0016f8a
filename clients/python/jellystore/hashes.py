"""The hashes of docs/FORMATS.md, "Keys and roots", and the bits of keys."""
from hashlib import sha256
from typing import Optional, Sequence, Union

Bytes = Union[bytes, bytearray, memoryview]
"""What a caller may pass for bytes."""

Entry = tuple[bytes, bytes]
"""A key, and its value or the hash of its value."""

Claim = tuple[bytes, bytes, Optional[bytes], Optional[Entry], list[bytes]]
"""A root, a name, a value or None, a leaf or None, and siblings."""

SIZE = 32
"""The bytes of a root, a key or a hash."""


def _hash(*parts: bytes) -> bytes:
    return sha256(b"".join(parts)).digest()


EMPTY = _hash(b"\0")
"""The root of the empty map."""


def value_hash(value: bytes) -> bytes:
    """The hash of a value."""
    return _hash(b"\3", value)


def key_of(name: bytes) -> bytes:
    """The key of a name."""
    return _hash(b"\4", name)


def plain(it: Bytes) -> bytes:
    """What a caller passed, as bytes."""
    return it if type(it) is bytes else bytes(memoryview(it))


def sized(it: Bytes) -> bytes:
    """A root, a key or a hash that a caller passed. Raises ValueError if it hasn't 32 bytes: a leaf's key and hash, cut at another place,
    would be hashed alike."""
    hash = plain(it)
    if len(hash) != SIZE:
        raise ValueError("a root, a key and a hash have 32 bytes")
    return hash


def leaf_hash(key: Bytes, value_hash: Bytes) -> bytes:
    """The hash of a leaf. Raises ValueError if the key or the hash hasn't 32 bytes."""
    return leaf_hash_of_sized(sized(key), sized(value_hash))


def pair_hash(left: Bytes, right: Bytes) -> bytes:
    """The hash of a part whose two halves have these hashes, that of bit 0 first. Raises ValueError if one hasn't 32 bytes."""
    return pair_hash_of_sized(sized(left), sized(right))


def leaf_hash_of_sized(key: bytes, value_hash: bytes) -> bytes:
    """As leaf_hash, of parts whose sizes are right."""
    return _hash(b"\1", key, value_hash)


def pair_hash_of_sized(left: bytes, right: bytes) -> bytes:
    """As pair_hash, of hashes whose sizes are right."""
    return _hash(b"\2", left, right)


def sized_leaf(it: Sequence[Bytes]) -> Entry:
    """A leaf that a caller passed. Raises ValueError if it isn't a key and a hash."""
    if len(it) != 2:
        raise ValueError("a leaf is a key and the hash of a value")
    return sized(it[0]), sized(it[1])


def sized_leaves(leaves: Sequence[Sequence[Bytes]]) -> list[Entry]:
    """The leaves that a caller passed. Raises ValueError as sized_leaf does."""
    return [sized_leaf(leaf) for leaf in leaves]


def sized_claim(
    root: Bytes, name: Bytes, value: Optional[Bytes], leaf: Optional[Sequence[Bytes]], siblings: Sequence[Bytes]
) -> Claim:
    """A claim that a caller passed. Raises ValueError if a root, a key or a hash hasn't 32 bytes."""
    return (
        sized(root), plain(name), None if value is None else plain(value), None if leaf is None else sized_leaf(leaf),
        [sized(sibling) for sibling in siblings],
    )


def bit(key: bytes, place: int) -> int:
    """Bit `place` of a key, the highest bit of its first byte being bit 0."""
    return key[place >> 3] >> (7 - (place & 7)) & 1


def common_bits(key: bytes, other: bytes) -> int:
    """How many leading bits two keys have in common."""
    return 8 * len(key) - (int.from_bytes(key, "big") ^ int.from_bytes(other, "big")).bit_length()


def sibling_joined(key: bytes, place: int, hash: bytes, sibling: bytes) -> bytes:
    """The hash above a hash on a key's way at a bit, and its sibling."""
    return pair_hash_of_sized(sibling, hash) if bit(key, place) else pair_hash_of_sized(hash, sibling)


def root_of(leaves: Sequence[Sequence[Bytes]]) -> bytes:
    """The root of a map, of its keys in ascending order with the hashes of their values. Raises ValueError if the keys don't ascend
    strictly, or a key or a hash hasn't 32 bytes."""
    entries = sized_leaves(leaves)
    if any(key >= later for (key, _), (later, _) in zip(entries, entries[1:])):
        raise ValueError("the keys don't ascend strictly")
    return _part_root(entries, 0, len(entries), 0)


def _part_root(leaves: Sequence[Entry], start: int, end: int, depth: int) -> bytes:
    """The root of the leaves from one place up to another, whose keys agree in so many bits."""
    if end - start < 2:
        return leaf_hash_of_sized(*leaves[start]) if start < end else EMPTY
    middle = _first_one(leaves, start, end, depth)
    return pair_hash_of_sized(_part_root(leaves, start, middle, depth + 1), _part_root(leaves, middle, end, depth + 1))


def _first_one(leaves: Sequence[Entry], start: int, end: int, depth: int) -> int:
    """The place of the first leaf whose bit is 1, or the end."""
    while start < end:
        middle = (start + end) // 2
        if bit(leaves[middle][0], depth):
            end = middle
        else:
            start = middle + 1
    return start
