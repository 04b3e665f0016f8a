"""A reply that shows a value, as an existence proof of ICS-23 (Interchain Standards, "Vector Commitments").

Names of types and fields are those of the standard's `proofs.proto`. What is verified here is its rule for membership, with nothing of this
format in it; that the roots agree is what the tests show. A name's absence isn't a non-existence proof of ICS-23, which takes two
neighbours.
"""
from hashlib import sha256
from typing import NamedTuple

from jellystore.hashes import EMPTY, bit, key_of
from jellystore.lines import NoMatch, proof_block
from jellystore.refusals import Refused

KEY_TAG, VALUE_TAG, LEAF_PREFIX, INNER_PREFIX = b"\4", b"\3", b"\1", b"\2"
CHILD_SIZE, MAX_DEPTH, NO_BLOCK = 32, 256, 6


class LeafOp(NamedTuple):
    """How a key and a value become the hash of a leaf."""

    hash: str
    prehash_key: str
    prehash_value: str
    length: str
    prefix: bytes


class InnerOp(NamedTuple):
    """What stands before and after a child in what its parent is the hash of."""

    hash: str
    prefix: bytes
    suffix: bytes


class InnerSpec(NamedTuple):
    child_order: list[int]
    child_size: int
    min_prefix_length: int
    max_prefix_length: int
    empty_child: bytes
    hash: str


class ProofSpec(NamedTuple):
    leaf_spec: LeafOp
    inner_spec: InnerSpec
    max_depth: int
    prehash_key_before_comparison: bool


class ExistenceProof(NamedTuple):
    """The operations of the path stand from the leaf to the root."""

    key: bytes
    value: bytes
    leaf: LeafOp
    path: list[InnerOp]


SPEC = ProofSpec(
    LeafOp("SHA256", "SHA256", "SHA256", "NO_PREFIX", LEAF_PREFIX),
    InnerSpec([0, 1], CHILD_SIZE, len(INNER_PREFIX), len(INNER_PREFIX), EMPTY, "SHA256"),
    MAX_DEPTH,
    True,
)


def ics_key(name: bytes) -> bytes:
    """The key of ICS-23 that a name is."""
    return KEY_TAG + name


def ics_value(value: bytes) -> bytes:
    """The value of ICS-23 that a value is."""
    return VALUE_TAG + value


def existence(reply: bytes) -> ExistenceProof:
    """The proof in a reply to `prove`. Nothing is judged. Raises Refused, with 6, if the reply isn't one block that claims a value."""
    try:
        block = proof_block(reply)
    except NoMatch:
        raise Refused(NO_BLOCK) from None
    if block.value is None:
        raise Refused(NO_BLOCK)
    key, count = key_of(block.name), len(block.siblings)
    path = [_inner(bit(key, place), sibling) for place, sibling in zip(range(count - 1, -1, -1), block.siblings)]
    return ExistenceProof(ics_key(block.name), ics_value(block.value), SPEC.leaf_spec, path)


def _inner(bit_of_key: int, sibling: bytes) -> InnerOp:
    """The operation above a child: a 1 bit puts the sibling on its left."""
    return InnerOp("SHA256", INNER_PREFIX + sibling, b"") if bit_of_key else InnerOp("SHA256", INNER_PREFIX, sibling)


def calculate(proof: ExistenceProof) -> bytes:
    """The root that a proof comes to."""
    hash = _sha(proof.leaf.prefix + _sha(proof.key) + _sha(proof.value))
    for op in proof.path:
        hash = _sha(op.prefix + hash + op.suffix)
    return hash


def _sha(data: bytes) -> bytes:
    return sha256(data).digest()


def is_member(spec: ProofSpec, root: bytes, proof: ExistenceProof, key: bytes, value: bytes) -> bool:
    """Whether a proof shows that the tree of a root has this value under this key, by the standard's rule."""
    is_asked = (proof.key, proof.value) == (key, value) and bool(key) and bool(value)
    fits = proof.leaf == spec.leaf_spec and len(proof.path) <= spec.max_depth and all(_fits(spec, op) for op in proof.path)
    return is_asked and fits and calculate(proof) == root


def _fits(spec: ProofSpec, op: InnerOp) -> bool:
    inner = spec.inner_spec
    longest = inner.max_prefix_length + (len(inner.child_order) - 1) * inner.child_size
    is_inner = op.hash == inner.hash and not op.prefix.startswith(spec.leaf_spec.prefix)
    return is_inner and inner.min_prefix_length <= len(op.prefix) <= longest and len(op.suffix) % inner.child_size == 0
