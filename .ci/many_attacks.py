"""Tries blocks of many claims that the mode `verify` accepts, though they don't show what was asked for: whoever judges one has to look at
more than that verdict. The script `shown.sh` of docs/OPERATING.md does, and has to refuse each of them."""
import os
import subprocess
import tempfile
from typing import Callable, NamedTuple

from doc_blocks import Differs, blocks_of

DOCUMENT, SCRIPT = "docs/OPERATING.md", "shown.sh"
SECONDS = 60
FIRST = "put 61 =37\nput 62 =38\ncommit\n"
SECOND = "put 61 =39\ncommit\n"
FORGED = "put 61 =ff\nput 62 =38\ncommit\n"


class Room(NamedTuple):
    """A folder with the program as `jellystore`, the script, and the names that were asked for."""

    place: str

    def run(self, words: list, text: bytes) -> tuple:
        """The status of a command and what it printed."""
        path = os.pathsep.join([self.place, os.environ["PATH"]])
        ran = subprocess.run(words, cwd=self.place, input=text, stdout=subprocess.PIPE, env={**os.environ, "PATH": path}, timeout=SECONDS)
        return ran.returncode, ran.stdout

    def store(self, folder: str, words: list, text: str) -> bytes:
        return self.run(["jellystore", folder, *words], text.encode())[1]

    def root(self, folder: str, version: int) -> str:
        return self.store(folder, ["run"], f"root v{version}\n").decode().split()[-1]


class Said(NamedTuple):
    """The newest root, a store's blocks about names under it, its block under an older root, and another store's root and block."""

    root: str
    block: bytes
    of_other: bytes
    of_one: bytes
    of_more: bytes
    proof: bytes
    old: bytes
    forged_root: str
    forged: bytes


def said(room: Room) -> Said:
    for folder, script in ("store", FIRST + SECOND), ("other", FORGED):
        os.mkdir(os.path.join(room.place, folder))
        room.store(folder, ["run"], script)
    block, of_other, of_one, of_more = (
        room.store("store", ["many", "2"], names) for names in ("61\n62\n", "62\n63\n", "61\n", "61\n62\n63\n")
    )
    old, forged = room.store("store", ["many", "1"], "61\n62\n"), room.store("other", ["many", "1"], "61\n62\n")
    proof = room.store("store", ["run"], "prove head 63\n")
    return Said(room.root("store", 2), block, of_other, of_one, of_more, proof, old, room.root("other", 1), forged)


def rest(root: str) -> bytes:
    return f"many 0 1\nrest {root}\n".encode()


# What is sent to somebody who holds the newest root and asked for 61 and 62, and what `verify` writes on it.
ATTACKS: dict[str, tuple[Callable[[Said], bytes], str]] = {
    "a root of the server's own, and a forged block": (lambda it: f"root {it.forged_root}\n".encode() + it.forged, "accepted"),
    "such a root as a reply": (lambda it: f"0 ok root {it.forged_root}\n".encode() + it.forged, "accepted"),
    "the true block, and a forged one under its root": (
        lambda it: it.block + f"root {it.forged_root}\n".encode() + it.forged, "accepted accepted",
    ),
    "the block of other names": (lambda it: it.of_other, "accepted"),
    "the block of one of the names": (lambda it: it.of_one, "accepted"),
    "the block of a name more": (lambda it: it.of_more, "accepted"),
    "no claim": (lambda it: rest(it.root), "accepted"),
    "no claim, under another root": (lambda it: rest("00" * 32), "accepted"),
    "the block twice": (lambda it: it.block + it.block, "accepted accepted"),
    "the block of one name, and that of the others": (lambda it: it.of_one + it.of_other, "accepted accepted"),
    "a proof of another name after the block": (lambda it: it.block + it.proof, "accepted accepted"),
    "a line after the block": (lambda it: it.block + b"61\n", "accepted syntax"),
    "a line before the block": (lambda it: b"61\n" + it.block, "syntax accepted"),
    "a forged block": (lambda it: it.forged, "refused"),
    "the block of the older version": (lambda it: it.old, "refused"),
    "another value": (lambda it: it.block.replace(b"claim 61 =39", b"claim 61 =3a"), "refused"),
    "a claim of absence": (lambda it: it.block.replace(b"claim 61 =39", b"claim 61 none"), "refused"),
    "the block without its last line": (lambda it: b"".join(it.block.splitlines(True)[:-1]), "syntax"),
    "nothing": (lambda it: b"", ""),
}


def expect(what: str, found: object, wanted: object) -> None:
    if found != wanted:
        raise Differs(f"{what}: {found} in place of {wanted}")


def try_many(program: str) -> int:
    """How many attacks were refused. Raises Differs."""
    with tempfile.TemporaryDirectory() as place:
        room = Room(place)
        os.symlink(os.path.abspath(program), os.path.join(place, "jellystore"))
        texts = {SCRIPT: next(it.text for it in blocks_of(DOCUMENT) if it.before.endswith(f"`{SCRIPT}`:")), "names": "61\n62\n"}
        for name, text in texts.items():
            with open(os.path.join(place, name), "w", encoding="utf-8") as it:
                it.write(text)
        it = said(room)
        words = ["sh", SCRIPT, it.root, "names"]
        expect("the true block", room.run(words, it.block), (0, b"claim 61 =39\nclaim 62 =38\n"))
        for title, (make, verdicts) in ATTACKS.items():
            _, written = room.run(["jellystore", "-", "verify"], f"root {it.root}\n".encode() + make(it))
            expect(f"verify of {title}", " ".join(line.split()[0] for line in written.decode().splitlines()), verdicts)
            expect(title, room.run(words, make(it)), (1, b""))
    return len(ATTACKS)
