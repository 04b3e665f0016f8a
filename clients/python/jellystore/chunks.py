"""A version put together from the replies to `chunk`, each checked against the version's root as it comes (docs/FORMATS.md, "Chunk
blocks"). What was taken is never hashed again, so the time is linear."""
from jellystore.hashes import EMPTY, Bytes, Entry, bit, common_bits, leaf_hash_of_sized, pair_hash_of_sized, plain, sized, value_hash
from jellystore.lines import ChunkBlock, NoMatch, chunk_block, chunk_length, lines_of
from jellystore.refusals import ChunkRefused, LineRefused

MAX_DEPTH = 256


class Frontier:
    """What is kept of entries in ascending order: the last one's leaf, and the hashes on the left of its way, by their depth. A
    part without an entry has none. Nobody checks here that a key or a hash has 32 bytes: the lines of a chunk block see to it."""

    def __init__(self) -> None:
        self.last: Entry | None = None
        self.lefts: dict[int, bytes] = {}

    def copy(self) -> "Frontier":
        other = Frontier()
        other.last, other.lefts = self.last, dict(self.lefts)
        return other

    def push(self, key: bytes, value: bytes) -> None:
        """Adds an entry whose key is above all others."""
        if self.last is not None:
            self._close(self.last, key)
        self.last = (key, value_hash(value))

    def _close(self, last: Entry, key: bytes) -> None:
        """Makes the part that ends with the last entry one hash, on the left of the next key's way."""
        common, hash = common_bits(last[0], key), leaf_hash_of_sized(*last)
        for depth in range(max(self.lefts, default=0), common, -1):
            hash = self._joined(last[0], depth, hash, EMPTY)
            self.lefts.pop(depth, None)
        self.lefts[common] = hash

    def _joined(self, key: bytes, depth: int, hash: bytes, right: bytes) -> bytes:
        """The hash above one on a key's way: with what is kept on the left, or with a hash on the right."""
        return pair_hash_of_sized(self.lefts.get(depth, EMPTY), hash) if bit(key, depth) else pair_hash_of_sized(hash, right)

    def root(self) -> bytes:
        """The root of all entries."""
        if self.last is None:
            return EMPTY
        hash = leaf_hash_of_sized(*self.last)
        for depth in range(max(self.lefts, default=-1), -1, -1):
            hash = self._joined(self.last[0], depth, hash, EMPTY)
        return hash

    def chunk_root(self, depth: int, siblings: list[bytes]) -> bytes:
        """What the entries come to, if the last one stands alone below so many bits, with the hashes on the right of its way."""
        assert self.last is not None
        key, hash, rights = self.last[0], leaf_hash_of_sized(*self.last), iter(siblings)
        for place in range(depth - 1, -1, -1):
            right = EMPTY if bit(key, place) else next(rights)
            hash = self._joined(key, place, hash, right)
        return hash


class Chunks:
    """The chunks of one version, from its first entry on. `entries` are those taken so far, which the root vouches for."""

    def __init__(self, root: Bytes) -> None:
        """Raises ValueError if the root hasn't 32 bytes."""
        self.root = sized(root)
        self.entries: list[Entry] = []
        self._frontier = Frontier()

    def take(self, reply: Bytes) -> list[Entry]:
        """The entries of the chunk blocks of a text, each of which has to go on where those before it end. Raises LineRefused for the
        first line that isn't one of a block, and ChunkRefused for a block that isn't shown; those before it stay."""
        lines, place, count = lines_of(plain(reply)), 0, len(self.entries)
        while place < len(lines):
            try:
                block = chunk_block(lines, place)
            except NoMatch as why:
                raise LineRefused(why.place + 1) from None
            self._take_block(block, place + 1)
            place += chunk_length(block)
        return self.entries[count:]

    def _take_block(self, block: ChunkBlock, line: int) -> None:
        """Takes the block whose first line has this number. Raises ChunkRefused, and then nothing changes."""
        number = self._fault(block)
        if number:
            raise ChunkRefused(number, line)
        frontier = self._frontier.copy()
        for key, value in block.entries:
            frontier.push(key, value)
        if frontier.chunk_root(block.depth, block.siblings) != self.root:
            raise ChunkRefused(5, line)
        self._frontier = frontier
        self.entries += block.entries

    def _fault(self, block: ChunkBlock) -> int:
        """The number of the first check before the last one that refuses a block; or 0."""
        if not block.entries:
            return 1
        keys = [key for key, _ in self.entries[-1:] + block.entries]
        if any(key >= later for key, later in zip(keys, keys[1:])):
            return 2
        last = keys[-1]
        if block.depth > MAX_DEPTH or len(block.siblings) != sum(not bit(last, place) for place in range(block.depth)):
            return 3
        return 4 if len(keys) > 1 and common_bits(keys[-2], last) >= block.depth else 0

    def found_root(self) -> bytes:
        """The root of the entries taken so far."""
        return self._frontier.root()

    def is_whole(self) -> bool:
        """Whether these are all entries of the version."""
        return self.found_root() == self.root
