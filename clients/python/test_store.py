"""The driver over the program whose path the environment's JELLYSTORE has; without it nothing is tested. `python3 -m unittest` runs it
here."""
import os
import tempfile
import threading
import time
import unittest

from jellystore import Chunks, Ended, NotDone, Refused, Store, light, look_up, root_of, value_hash
from jellystore.hashes import key_of

PROGRAM = os.environ.get("JELLYSTORE", "")
NAMES = {b"name%d" % number: b"value%d" % number for number in range(1_000)}


@unittest.skipUnless(PROGRAM, "JELLYSTORE names no program")
class OverAStore(unittest.TestCase):
    def setUp(self) -> None:
        self.store = Store("-", PROGRAM)
        self.addCleanup(self.end)

    def end(self) -> None:
        try:
            self.store.close()
        except Ended:
            pass

    def test_many_lines_before_a_reply(self) -> None:
        """Both pipes would be full long before."""
        replies = self.store.send(f"put {number:08x} ={number:0512x}" for number in range(10_000))
        self.assertEqual([reply.result().words[1] for reply in replies[-2:]], ["9999", "10000"])
        self.assertEqual(self.store.commit()[0], 1)
        reads = self.store.send(f"get head {number:08x}" for number in range(10_000))
        self.assertEqual(reads[77].result().words, ["value", f"={77:0512x}"])
        self.assertRaises(NotDone, self.store.send(["get v9 61"])[0].result)

    def test_values_and_proofs(self) -> None:
        self.store.change(dict(NAMES))
        version, root = self.store.commit()
        self.assertEqual((version, self.store.root()), (1, root))
        for name in [*list(NAMES)[::50], b"absent", b"nobody"]:
            reply = self.store.prove(name)
            self.assertEqual(look_up(root, name, reply), NAMES.get(name))
            self.assertEqual(light.look_up(root, name, reply), self.store.get(name))
            self.assertRaises(Refused, look_up, bytes(32), name, reply)
            self.assertRaises(Refused, look_up, root, name + b"!", reply)

    def test_chunks(self) -> None:
        self.store.change(dict(NAMES))
        _, root = self.store.commit()
        chunks = Chunks(root)
        for start in range(0, self.store.count(), 300):
            chunks.take(self.store.chunk(start, 300))
        self.assertTrue(chunks.is_whole())
        self.assertEqual(chunks.entries, sorted((key_of(name), value) for name, value in NAMES.items()))
        self.assertEqual(root_of([(key, value_hash(value)) for key, value in chunks.entries]), root)
        self.assertEqual(self.store.nth(7), chunks.entries[7])

    def test_versions_and_forks(self) -> None:
        self.store.put(b"a", b"1")
        self.store.commit()
        self.store.put(b"a", b"2")
        fork, root = self.store.fork()
        self.assertEqual((self.store.get(b"a"), self.store.get(b"a", fork)), (b"1", b"2"))
        self.assertEqual(self.store.land(fork), (2, root))
        self.assertEqual((self.store.pin(1), self.store.prune(2), self.store.unpin(0)), (0, 1, 1))
        self.store.delete(b"a")
        self.store.clear()
        self.assertEqual(self.store.commit()[1], root)
        self.assertEqual((self.store.compact(), self.store.status()["head"]), (2, 3))

    def test_refusals(self) -> None:
        with self.assertRaises(NotDone) as refused:
            self.store.get(b"a", "v7")
        self.assertEqual(str(refused.exception), "future 0")
        self.assertRaises(NotDone, self.store.ask, "nonsense")
        self.assertEqual(self.store.get(b"a"), None)

    def test_a_killed_program(self) -> None:
        waiting = self.store.send(["root head"] * 3)
        self.store._program.kill()
        self.assertTrue(all(reply.exception() is None or isinstance(reply.exception(), Ended) for reply in waiting))
        time.sleep(0.1)
        with self.assertRaises(Ended) as ended:
            self.store.status()
        self.assertEqual(ended.exception.status, -9)


@unittest.skipUnless(PROGRAM, "JELLYSTORE names no program")
class OverAFolder(unittest.TestCase):
    def test_two_runs(self) -> None:
        with tempfile.TemporaryDirectory() as folder:
            with Store(folder, PROGRAM) as store:
                store.put(b"a", b"1")
                _, root = store.commit()
                threads = threading.active_count()
                with self.assertRaises(Ended) as ended:
                    Store(folder, PROGRAM)
                self.assertEqual(threading.active_count(), threads)
                self.assertEqual((ended.exception.status, ended.exception.message), (4, "disk fault\nbecause: in use by another run"))
            with Store(folder, PROGRAM, workers=2) as store:
                self.assertEqual((store.root(), store.get(b"a")), (root, b"1"))


if __name__ == "__main__":
    unittest.main()
