"""The proved library (clients/c/jelly.h) by ctypes: the same calls as the modules in Python alone, with the same verdicts."""
import os
from ctypes import CDLL, POINTER, byref, c_char_p, c_size_t, c_uint32, create_string_buffer
from typing import Optional, Sequence

from jellystore.hashes import SIZE, Bytes, plain, sized, sized_claim, sized_leaves
from jellystore.refusals import Refused

MAX_VALUE = 4_096
VALUE, ABSENT, REFUSED = 0, 1, 16


class Library:
    """The shared object at a path. Raises OSError if it can't be loaded."""

    def __init__(self, path: str) -> None:
        library = CDLL(path)
        self._ask, self._judge, self._root = library.jelly_ask, library.jelly_judge, library.jelly_root
        self._ask.argtypes = [c_char_p, c_char_p, c_size_t, c_char_p, c_size_t, c_char_p, c_size_t, POINTER(c_size_t)]
        self._judge.argtypes = [
            c_char_p, c_char_p, c_size_t, c_uint32, c_char_p, c_size_t, c_uint32, c_char_p, c_char_p, c_char_p, c_size_t,
        ]
        self._root.argtypes = [c_char_p, c_size_t, c_char_p]
        for call in (self._ask, self._judge, self._root):
            call.restype = c_uint32

    def look_up(self, root: Bytes, name: Bytes, reply: Bytes) -> Optional[bytes]:
        """As look_up in light.py."""
        root, name, reply = sized(root), plain(name), plain(reply)
        value, length = create_string_buffer(MAX_VALUE), c_size_t()
        number = self._ask(root, name, len(name), reply, len(reply), value, MAX_VALUE, byref(length))
        if number >= REFUSED:
            raise Refused(number - REFUSED)
        return None if number == ABSENT else value.raw[: length.value]

    def judge(
        self, root: Bytes, name: Bytes, value: Optional[Bytes], leaf: Optional[Sequence[Bytes]], siblings: Sequence[Bytes]
    ) -> int:
        """As judge in light.py."""
        top, own, claimed, entry, beside = sized_claim(root, name, value, leaf, siblings)
        bytes_of_value = claimed or b""
        key, hash = entry or (bytes(SIZE), bytes(SIZE))
        return self._judge(
            top, own, len(own), claimed is not None, bytes_of_value, len(bytes_of_value),
            entry is not None, key, hash, b"".join(beside), len(beside),
        )

    def root_of(self, leaves: Sequence[Sequence[Bytes]]) -> bytes:
        """As root_of in hashes.py."""
        root, entries = create_string_buffer(SIZE), sized_leaves(leaves)
        if self._root(b"".join(it for entry in entries for it in entry), len(entries), root):
            raise ValueError("the keys don't ascend strictly")
        return root.raw


def path_of_library() -> str:
    """Where the shared object is looked for: where the environment's JELLY_LIBRARY says, or where `make` in clients/c puts it."""
    clients = os.path.dirname(os.path.dirname(os.path.dirname(os.path.abspath(__file__))))
    return os.environ.get("JELLY_LIBRARY") or os.path.join(clients, "out", "libjelly.so")


def loaded() -> Optional[Library]:
    """The proved library, or None if it isn't there."""
    try:
        return Library(path_of_library())
    except OSError:
        return None
