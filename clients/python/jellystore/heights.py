"""A store that is opened only if it still has what it acknowledged before.

Files from an older copy are sound by themselves, and so are files whose last records are cut off by a gate that reads wrong. An opening
can't tell either from a store that never went further. So the newest version and its root are noted in a file of the caller's own, outside
the store's folder, and each opening after the first is by the mode `resume`.
"""
import os
from typing import Optional

from jellystore.hashes import sized
from jellystore.store import Store

Height = tuple[int, bytes]
"""A version, and its root."""


class Heights:
    """The newest version that a store acknowledged, and its root, in a file of one line: `VERSION ROOT`. The file is replaced as a whole, and
    outlives a power cut as the store does."""

    def __init__(self, path: str) -> None:
        self.path = path
        self.newest = self._read()

    def _read(self) -> Optional[Height]:
        """What is noted. Raises ValueError if the file has something else."""
        try:
            with open(self.path, encoding="ascii") as it:
                version, root = it.read().split()
        except FileNotFoundError:
            return None
        return int(version), sized(bytes.fromhex(root))

    def note(self, version: int, root: bytes) -> None:
        """Notes what the store has acknowledged. A lower version than the one that is noted raises ValueError,
        and so does a root that hasn't 32 bytes."""
        root = sized(root)
        if self.newest is not None and version < self.newest[0]:
            raise ValueError(f"version {version} comes after version {self.newest[0]}")
        with open(self.path + ".new", "w", encoding="ascii") as it:
            it.write(f"{version} {root.hex()}\n")
            it.flush()
            os.fsync(it.fileno())
        os.replace(self.path + ".new", self.path)
        _sync_folder(os.path.dirname(os.path.abspath(self.path)))
        self.newest = version, root

    def open(self, folder: str, program: str = "jellystore", workers: Optional[int] = None) -> Store:
        """Opens the store, and notes its newest version. Raises RolledBack if it hasn't the version that is noted, with that root. If nothing
        is noted yet, any store is taken. If the note can't be made, the store is closed."""
        store = Store(folder, program, workers, self.newest)
        try:
            # (a landing may have been acknowledged by the files, and not be noted yet)
            self.note(store.status()["head"], store.root())
        except BaseException:
            store.close()
            raise
        return store


def _sync_folder(folder: str) -> None:
    """Makes a new name in a folder outlive a power cut."""
    handle = os.open(folder, os.O_RDONLY)
    try:
        os.fsync(handle)
    finally:
        os.close(handle)
