"""The note of a store's newest version, over the program whose path the environment's JELLYSTORE has; without it nothing is tested.
`python3 -m unittest` runs it here."""
import os
import shutil
import tempfile
import unittest

from jellystore import EMPTY, Ended, Heights, RolledBack, Store

PROGRAM = os.environ.get("JELLYSTORE", "")


def read(folder: str) -> dict[str, bytes]:
    """The bytes of a store's files."""
    found = {}
    for name in sorted(os.listdir(folder)):
        with open(os.path.join(folder, name), "rb") as it:
            found[name] = it.read()
    return found


@unittest.skipUnless(PROGRAM, "JELLYSTORE names no program")
class Noted(unittest.TestCase):
    def setUp(self) -> None:
        place = tempfile.TemporaryDirectory()
        self.addCleanup(place.cleanup)
        self.folder, self.copy, self.path = (os.path.join(place.name, name) for name in ("store", "copy", "newest"))
        os.mkdir(self.folder)

    def opened(self) -> Store:
        return Heights(self.path).open(self.folder, PROGRAM)

    def landed(self, value: bytes) -> tuple[int, bytes]:
        """Lands a value without a note of it."""
        with Store(self.folder, PROGRAM) as store:
            store.put(b"a", value)
            return store.commit()

    def test_a_store_that_went_on(self) -> None:
        self.opened().close()
        self.assertEqual(Heights(self.path).newest, (0, EMPTY))
        first = self.landed(b"1")
        self.opened().close()
        self.assertEqual(Heights(self.path).newest, first)
        with self.opened() as store:
            store.prune(1)
        second = self.landed(b"2")
        with self.opened() as store:
            self.assertEqual((store.status()["head"], store.root()), second)

    def test_an_older_copy(self) -> None:
        first = self.landed(b"1")
        shutil.copytree(self.folder, self.copy)
        Heights(self.path).note(*self.landed(b"2"))
        shutil.rmtree(self.folder)
        os.rename(self.copy, self.folder)
        before = read(self.folder)
        with self.assertRaises(RolledBack) as found:
            self.opened()
        self.assertEqual(((found.exception.head, found.exception.root), found.exception.status, read(self.folder)), (first, 12, before))

    def test_another_root(self) -> None:
        version, root = self.landed(b"1")
        Heights(self.path).note(version, bytes(32))
        with self.assertRaises(RolledBack) as found:
            self.opened()
        self.assertEqual((found.exception.head, found.exception.root), (version, root))

    def test_a_run_that_goes_on(self) -> None:
        with self.opened():
            with self.assertRaises(Ended) as ended:
                self.opened()
            self.assertEqual(ended.exception.status, 4)

    def test_a_note_that_cannot_be_made(self) -> None:
        """The store is closed: another run may open it."""
        heights = Heights(os.path.join(self.path, "none", "newest"))
        self.assertRaises(FileNotFoundError, heights.open, self.folder, PROGRAM)
        self.opened().close()

    def test_notes(self) -> None:
        heights = Heights(self.path)
        heights.note(7, EMPTY)
        self.assertRaises(ValueError, heights.note, 6, EMPTY)
        self.assertRaises(ValueError, heights.note, 8, EMPTY[1:])
        self.assertEqual(Heights(self.path).newest, (7, EMPTY))
        for text in ("7", "7 " + EMPTY.hex()[2:], "7 " + EMPTY.hex() + "00"):
            with open(self.path, "w", encoding="ascii") as it:
                it.write(text)
            self.assertRaises(ValueError, Heights, self.path)


if __name__ == "__main__":
    unittest.main()
