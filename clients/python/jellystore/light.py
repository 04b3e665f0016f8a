"""A light client in Python alone: what a version says of a name, from a reply to `prove` and the version's root (docs/FORMATS.md).

Root and name are the caller's own. Everything else may come from a server that isn't trusted.
"""
from typing import Optional, Sequence

from jellystore.hashes import (
    EMPTY, Bytes, Entry, common_bits, key_of, leaf_hash_of_sized, plain, sibling_joined, sized, sized_claim, value_hash,
)
from jellystore.lines import MAX_SIBLINGS, NoMatch, proof_block
from jellystore.refusals import Refused

OTHER_NAME, NO_BLOCK = 5, 6


def judge(
    root: Bytes, name: Bytes, value: Optional[Bytes], leaf: Optional[Sequence[Bytes]], siblings: Sequence[Bytes]
) -> int:
    """0 if a claim on a name, its value or None for its absence, is shown under a root; otherwise the number of the first check that
    refuses it. The leaf is its key and the hash of its value; the lowest sibling comes first. Raises ValueError if the root, or a key
    or a hash in the leaf or beside the way, hasn't 32 bytes."""
    return _verdict(*sized_claim(root, name, value, leaf, siblings))


def _verdict(root: bytes, name: bytes, value: Optional[bytes], leaf: Optional[Entry], siblings: list[bytes]) -> int:
    """As judge, of parts whose sizes are right."""
    key, count = key_of(name), len(siblings)
    if count > MAX_SIBLINGS:
        return 1
    if value is not None and leaf != (key, value_hash(value)) or value is None and leaf is not None and leaf[0] == key:
        return 2
    if value is None and leaf is not None and common_bits(leaf[0], key) < count:
        return 3
    hash = leaf_hash_of_sized(*leaf) if leaf else EMPTY
    for place, sibling in zip(range(count - 1, -1, -1), siblings):
        hash = sibling_joined(key, place, hash, sibling)
    return 0 if hash == root else 4


def look_up(root: Bytes, name: Bytes, reply: Bytes) -> Optional[bytes]:
    """The value that a version has of a name, or None if it has none, from the reply to `prove`. Raises Refused if it isn't shown, and
    ValueError if the root hasn't 32 bytes."""
    root, name, reply = sized(root), plain(name), plain(reply)
    try:
        block = proof_block(reply)
    except NoMatch:
        raise Refused(NO_BLOCK) from None
    if block.name != name:
        raise Refused(OTHER_NAME)
    number = _verdict(root, name, block.value, block.leaf, block.siblings)
    if number:
        raise Refused(number)
    return block.value
