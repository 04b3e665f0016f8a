"""Each call of the client on each vector, in Python alone and by the proved library. `python3 -m unittest` runs it here."""
import unittest
from typing import Any, Callable, NamedTuple, Optional

from jellystore import hashes, light, native, vectors
from jellystore.chunks import Chunks
from jellystore.hashes import EMPTY, Entry, key_of, leaf_hash, leaf_hash_of_sized, pair_hash, value_hash
from jellystore.refusals import ChunkRefused, LineRefused, Refused

LIBRARY = native.loaded()


def shown(look_up: Callable[[bytes, bytes, bytes], Optional[bytes]], case: vectors.Lookup) -> str:
    """What a lookup shows, as vectors say it."""
    try:
        value = look_up(case.root, case.name, case.reply)
    except Refused as why:
        return f"refused {why.number}"
    return "none" if value is None else f"value ={value.hex()}"


def root_of(compute: Callable[[list[Entry]], bytes], case: vectors.Leaves) -> Optional[bytes]:
    try:
        return compute(case.leaves)
    except ValueError:
        return None


def come_to(case: vectors.Text) -> str:
    """What chunk blocks come to, as vectors say it."""
    chunks = Chunks(case.root)
    try:
        chunks.take(case.text)
    except LineRefused as why:
        return f"line {why.line}"
    except ChunkRefused as why:
        return f"chunk {why.line} {why.number}"
    return f"whole {len(chunks.entries)}" if chunks.is_whole() else f"not-whole {chunks.found_root().hex()}"


class InPythonAlone(unittest.TestCase):
    def test_lookups(self) -> None:
        for case in vectors.lookups():
            self.assertEqual(shown(light.look_up, case), case.shows, case.title)

    def test_claims(self) -> None:
        for case in vectors.claims():
            self.assertEqual(light.judge(case.root, case.name, case.value, case.leaf, case.siblings), case.judged, case.title)

    def test_roots(self) -> None:
        for case in vectors.leaves():
            self.assertEqual(root_of(hashes.root_of, case), case.root, case.title)

    def test_chunks(self) -> None:
        for case in vectors.texts():
            self.assertEqual(come_to(case), case.comes, case.title)

    def test_chunks_one_by_one(self) -> None:
        """The blocks of a version, given one at a time, are taken as they are together."""
        for case in vectors.texts():
            if case.comes.startswith("whole"):
                chunks = Chunks(case.root)
                blocks = case.text.replace(b"\n1 ok chunk", b"\n\0" + b"1 ok chunk").split(b"\0")
                taken = [entry for block in blocks for entry in chunks.take(block)]
                self.assertEqual((taken, chunks.is_whole()), (chunks.entries, True), case.title)


@unittest.skipIf(LIBRARY is None, f"no library at {native.path_of_library()}")
class ByTheLibrary(unittest.TestCase):
    def setUp(self) -> None:
        assert LIBRARY is not None
        self.library = LIBRARY

    def test_lookups(self) -> None:
        for case in vectors.lookups():
            self.assertEqual(shown(self.library.look_up, case), case.shows, case.title)

    def test_claims(self) -> None:
        for case in vectors.claims():
            self.assertEqual(self.library.judge(case.root, case.name, case.value, case.leaf, case.siblings), case.judged, case.title)

    def test_roots(self) -> None:
        for case in vectors.leaves():
            self.assertEqual(root_of(self.library.root_of, case), case.root, case.title)


class Engine(NamedTuple):
    """The calls of one engine, whatever they are given."""

    title: str
    look_up: Callable[..., Any]
    judge: Callable[..., Any]
    root_of: Callable[..., Any]


ENGINES = [
    Engine("in Python alone", light.look_up, light.judge, hashes.root_of),
    *([] if LIBRARY is None else [Engine("by the library", LIBRARY.look_up, LIBRARY.judge, LIBRARY.root_of)]),
]
NAME, VALUE = b"a", b"1"
KEY, HASH = key_of(NAME), value_hash(VALUE)
ROOT = leaf_hash(KEY, HASH)
REPLY = f"1 ok proof 0\nname {NAME.hex()}\nclaim ={VALUE.hex()}\nleaf {KEY.hex()} {HASH.hex()}\n".encode()


class ByEachEngine(unittest.TestCase):
    """What callers pass: both engines take and refuse the same."""

    def refuse(self, title: str, call: Callable[[Engine], Any]) -> None:
        for it in ENGINES:
            with self.subTest(title, engine=it.title):
                self.assertRaises(ValueError, call, it)

    def give(self, wanted: Any, call: Callable[[Engine], Any]) -> None:
        for it in ENGINES:
            with self.subTest(engine=it.title):
                self.assertEqual(call(it), wanted)

    def test_forged_leaf(self) -> None:
        """A leaf that is cut at another place is hashed as the true one, and its key isn't the name's."""
        for cut in (-1, 1, 31, -32, 32):
            both = KEY + HASH
            forged = (both[: 32 + cut], both[32 + cut :])
            self.assertEqual(leaf_hash_of_sized(*forged), ROOT)
            self.assertRaises(ValueError, leaf_hash, *forged)
            self.refuse(f"the key is cut by {cut}", lambda it: it.judge(ROOT, NAME, None, forged, []))
            self.refuse(f"the key is cut by {cut}", lambda it: it.root_of([forged]))

    def test_sizes(self) -> None:
        """Roots, keys, hashes and siblings have 32 bytes."""
        for size in (0, 31, 33, 64):
            wrong = bytes(size)
            self.refuse(f"a root of {size}", lambda it: it.look_up(wrong, NAME, REPLY))
            self.refuse(f"a root of {size}, no block", lambda it: it.look_up(wrong, NAME, b""))
            self.refuse(f"a root of {size}, judged", lambda it: it.judge(wrong, NAME, VALUE, (KEY, HASH), []))
            self.refuse(f"a key of {size}", lambda it: it.judge(ROOT, NAME, None, (wrong, HASH), []))
            self.refuse(f"a hash of {size}", lambda it: it.judge(ROOT, NAME, None, (KEY, wrong), []))
            self.refuse(f"a sibling of {size}", lambda it: it.judge(ROOT, NAME, None, None, [EMPTY, wrong]))
            self.refuse(f"a sibling of {size} among too many", lambda it: it.judge(ROOT, NAME, None, None, [EMPTY] * 300 + [wrong]))
            self.refuse(f"an entry's key of {size}", lambda it: it.root_of([(wrong, HASH)]))
            self.refuse(f"an entry's hash of {size}", lambda it: it.root_of([(KEY, wrong)]))

    def test_leaves(self) -> None:
        """A leaf is two of them, in a list or a tuple."""
        for leaf in ([], (), [KEY], (KEY, HASH, HASH)):
            self.refuse(f"a leaf of {len(leaf)}", lambda it: it.judge(ROOT, NAME, None, leaf, []))
            self.refuse(f"an entry of {len(leaf)}", lambda it: it.root_of([leaf]))
        for kind in (tuple, list):
            self.give(0, lambda it: it.judge(ROOT, NAME, VALUE, kind((KEY, HASH)), kind()))
            self.give(2, lambda it: it.judge(ROOT, NAME, None, kind((KEY, HASH)), kind()))
            self.give(ROOT, lambda it: it.root_of(kind([kind((KEY, HASH))])))

    def test_kinds_of_bytes(self) -> None:
        for kind in (bytes, bytearray, memoryview):
            self.give(VALUE, lambda it: it.look_up(kind(ROOT), kind(NAME), kind(REPLY)))
            self.give(0, lambda it: it.judge(kind(ROOT), kind(NAME), kind(VALUE), (kind(KEY), kind(HASH)), []))
            self.give(4, lambda it: it.judge(kind(ROOT), kind(NAME), kind(VALUE), (kind(KEY), kind(HASH)), [kind(EMPTY)]))
            self.give(ROOT, lambda it: it.root_of([(kind(KEY), kind(HASH))]))
        for it in ENGINES:
            self.assertRaises(TypeError, it.judge, 32, NAME, None, None, [])
            self.assertRaises(TypeError, it.judge, ROOT, NAME, None, None, [32])


class WithoutEngine(unittest.TestCase):
    """What callers pass to the hashes and to `Chunks`, which are in Python alone."""

    def test_sizes(self) -> None:
        for size in (0, 1, 31, 33, 64):
            wrong = bytes(size)
            for hash in (leaf_hash, pair_hash):
                self.assertRaises(ValueError, hash, wrong, HASH)
                self.assertRaises(ValueError, hash, KEY, wrong)
            self.assertRaises(ValueError, Chunks, wrong)

    def test_cut_elsewhere(self) -> None:
        """Two hashes that are cut at another place are no pair, though they have 64 bytes."""
        for cut in (-32, -1, 1, 32):
            both = KEY + HASH
            self.assertRaises(ValueError, pair_hash, both[: 32 + cut], both[32 + cut :])

    def test_kinds_of_bytes(self) -> None:
        chunk = f"1 ok chunk 1 0 0\nentry {KEY.hex()} ={VALUE.hex()}\n".encode()
        for kind in (bytes, bytearray, memoryview):
            self.assertEqual(leaf_hash(kind(KEY), kind(HASH)), ROOT)
            self.assertEqual(pair_hash(kind(KEY), kind(HASH)), pair_hash(KEY, HASH))
            self.assertEqual(Chunks(kind(ROOT)).take(kind(chunk)), [(KEY, VALUE)])

    def test_no_bytes(self) -> None:
        """No number stands for as many bytes of 0, and no text or list for bytes."""
        for other in (32, KEY.hex()[:32], list(KEY), None):
            self.assertRaises(TypeError, leaf_hash, other, HASH)
            self.assertRaises(TypeError, leaf_hash, KEY, other)
            self.assertRaises(TypeError, pair_hash, other, HASH)
            self.assertRaises(TypeError, pair_hash, KEY, other)
            self.assertRaises(TypeError, Chunks, other)


if __name__ == "__main__":
    unittest.main()
