"""A client of jellystore: it talks to a store (`Store`), and judges what stores say by a version's root alone (`look_up`, `judge`,
`root_of`, `Chunks`). docs/CLIENTS.md has examples.

`look_up`, `judge` and `root_of` are those of the proved library if it is there, and of Python alone if it isn't; `engine` tells
which. Their verdicts are the same.
"""
from jellystore import hashes, light, native
from jellystore.chunks import Chunks
from jellystore.hashes import EMPTY, key_of, leaf_hash, pair_hash, value_hash
from jellystore.heights import Heights
from jellystore.refusals import CHUNK_REASONS, REASONS, ChunkRefused, LineRefused, Refused
from jellystore.store import Ended, NotDone, Reply, RolledBack, Store

_library = native.loaded()

engine = "Python alone" if _library is None else "the proved library"
"""What judges."""

look_up = light.look_up if _library is None else _library.look_up
judge = light.judge if _library is None else _library.judge
root_of = hashes.root_of if _library is None else _library.root_of

__all__ = [
    "CHUNK_REASONS", "ChunkRefused", "Chunks", "EMPTY", "Ended", "Heights", "LineRefused", "NotDone", "REASONS", "Refused", "Reply",
    "RolledBack", "Store", "engine", "judge", "key_of", "leaf_hash", "look_up", "pair_hash", "root_of", "value_hash",
]
