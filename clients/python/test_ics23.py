"""The vectors as existence proofs of ICS-23. `python3 -m unittest` runs it here."""
import unittest

from jellystore import vectors
from jellystore.ics23 import SPEC, InnerOp, calculate, existence, ics_key, ics_value, is_member
from jellystore.refusals import Refused


def is_shown(case: vectors.Lookup, value: bytes) -> bool:
    """Whether the reply is an existence proof of this value for the name of the case."""
    try:
        proof = existence(case.reply)
    except Refused:
        return False
    return is_member(SPEC, case.root, proof, ics_key(case.name), ics_value(value))


def claimed(case: vectors.Lookup) -> bytes:
    """The value that a reply claims, whether it is shown or not."""
    try:
        return existence(case.reply).value[1:]
    except Refused:
        return b""


class OfVectors(unittest.TestCase):
    def test_values(self) -> None:
        """A reply that shows a value is a proof of it, and of no other."""
        shown = [case for case in vectors.lookups() if case.shows.startswith("value =")]
        self.assertGreater(len(shown), 50)
        for case in shown:
            value = bytes.fromhex(case.shows.removeprefix("value ="))
            self.assertTrue(is_shown(case, value), case.title)
            self.assertFalse(is_shown(case, value + b"!"), case.title)
            self.assertEqual(calculate(existence(case.reply)), case.root, case.title)

    def test_refusals(self) -> None:
        """What shows no value is a proof of none. But the line `leaf` is no part of such a proof, so a block in which that alone is wrong is one."""
        for case in vectors.lookups():
            if not case.shows.startswith("value =") and case.shows != "refused 2":
                self.assertFalse(is_shown(case, claimed(case)), case.title)

    def test_operations(self) -> None:
        """An operation that isn't an inner one is refused, whatever it comes to."""
        case = next(it for it in vectors.lookups() if it.shows.startswith("value =") and it.reply.startswith(b"1 ok proof 3\n"))
        proof = existence(case.reply)
        for hash, prefix, suffix in (("SHA256", b"\1", bytes(32)), ("SHA256", b"", bytes(32)), ("SHA256", b"\2", b"x"), ("SHA512", b"\2", bytes(32))):
            op = InnerOp(hash, prefix, suffix)
            forged = proof._replace(path=[*proof.path, op])
            self.assertFalse(is_member(SPEC, calculate(forged), forged, proof.key, proof.value), op)


if __name__ == "__main__":
    unittest.main()
