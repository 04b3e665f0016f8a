"""A store kept open by the program's mode `run`: lines go to it through a pipe, and its replies come back through another.

The program writes replies while it reads, and stops reading while nobody takes them. So one thread takes replies as they come and
never waits for anything else: any number of lines may be sent before the first reply is looked at.
"""
import subprocess
import threading
from collections import deque
from concurrent.futures import Future
from typing import IO, Iterable, NamedTuple, Optional

BASE = "head"
ELSEWHERE = 12
"""The status of a store that hasn't the root that it was resumed by."""


class NotDone(Exception):
    """A line was refused, with these words (docs/FORMATS.md, "Replies"), and changed nothing."""


class Ended(Exception):
    """The program ended: its status, and what it wrote on standard error. Whether a line without a reply was done isn't known."""

    def __init__(self, status: int, message: str) -> None:
        super().__init__(f"status {status}: {message}" if message else f"status {status}")
        self.status, self.message = status, message


class RolledBack(Ended):
    """The store hasn't the version by which it was resumed, or that one with another root. `head` and `root` are its newest version and
    the root of it. Nothing was done, and files with a record are unchanged."""

    def __init__(self, ended: Ended) -> None:
        super().__init__(ended.status, ended.message)
        _, head, root = ended.message.splitlines()[0].split(" ")
        self.head, self.root = int(head), bytes.fromhex(root)


class Reply(NamedTuple):
    """How many entries the run has made, the words after `ok`, and the whole reply with its lines, as a client judges it."""

    count: int
    words: list[str]
    text: bytes


def _lines_after(words: list[str]) -> int:
    """How many lines a reply has after its first one."""
    if words[0] == "proof":
        return int(words[1]) + 3
    return int(words[1]) + int(words[3]) if words[0] == "chunk" else 0


class _Replies:
    """The thread that takes replies, and the lines that wait for theirs."""

    def __init__(self, program: subprocess.Popen[bytes]) -> None:
        self._program = program
        self._waiting: deque[Future[Reply]] = deque()
        self._lock = threading.Lock()
        self._ended: Optional[Ended] = None
        self.thread = threading.Thread(target=self._take_all, daemon=True)
        self.thread.start()

    def expect(self) -> "Future[Reply]":
        """What the next line's reply will be. Lines have to be sent in the order of these calls."""
        future: Future[Reply] = Future()
        with self._lock:
            if self._ended is None:
                self._waiting.append(future)
                return future
        future.set_exception(self._ended)
        return future

    def _take_all(self) -> None:
        assert self._program.stdout is not None and self._program.stderr is not None
        with self._program.stdout as output, self._program.stderr as errors:
            try:
                while self._take(output):
                    pass
            except (IndexError, ValueError):
                self._program.kill()  # what it writes are no replies
            self._end(errors)

    def _take(self, output: IO[bytes]) -> bool:
        """Takes one reply. False at the end of the output, of which a reply that is cut is no part."""
        first = output.readline()
        if not first.endswith(b"\n"):
            return False
        count, verdict, *words = first.decode("ascii").split()
        rest = [output.readline() for _ in range(_lines_after(words) if verdict == "ok" else 0)]
        if rest and not rest[-1].endswith(b"\n"):
            return False
        with self._lock:
            future = self._waiting.popleft()
        if verdict == "ok":
            future.set_result(Reply(int(count), words, b"".join([first, *rest])))
        else:
            future.set_exception(NotDone(" ".join(words)))
        return True

    def _end(self, errors: IO[bytes]) -> None:
        message = errors.read().decode("utf-8", "replace").strip()
        ended = Ended(self._program.wait(), message)
        with self._lock:
            self._ended, waiting = ended, list(self._waiting)
            self._waiting.clear()
        for future in waiting:
            future.set_exception(ended)


class Store:
    """A store in a folder, or in memory for `-`. Names and values are bytes; versions and places are numbers; a base is `head`, `vN`,
    `pN` or `fN`. Each call raises NotDone if the line is refused, and Ended if the program ended.

    With `resume`, a version and its root, the store is opened only if that is the root that it has recorded of this version; otherwise
    RolledBack is raised."""

    def __init__(
        self, folder: str, program: str = "jellystore", workers: Optional[int] = None, resume: Optional[tuple[int, bytes]] = None
    ) -> None:
        mode = ["run"] if resume is None else ["resume", str(resume[0]), resume[1].hex()]
        words = [program, folder, *mode, *([] if workers is None else ["--workers", str(workers)])]
        self._program = subprocess.Popen(words, stdin=subprocess.PIPE, stdout=subprocess.PIPE, stderr=subprocess.PIPE)
        self._replies = _Replies(self._program)
        self._sending = threading.Lock()
        self._open()

    def _open(self) -> None:
        """Waits until the store is open."""
        try:
            self.status()
        except Ended as ended:
            self._close_input()
            self._replies.thread.join()
            if ended.status == ELSEWHERE:
                raise RolledBack(ended) from None
            raise

    def __enter__(self) -> "Store":
        return self

    def __exit__(self, *_: object) -> None:
        self.close()

    # ---- lines

    def send(self, lines: Iterable[str]) -> "list[Future[Reply]]":
        """Sends lines, and returns what the replies to them will be, without waiting for one."""
        with self._sending:
            sent = [(line, self._replies.expect()) for line in lines]
            self._write("".join(f"{line}\n" for line, _ in sent).encode("ascii"))
        return [future for _, future in sent]

    def _write(self, data: bytes) -> None:
        assert self._program.stdin is not None
        try:
            self._program.stdin.write(data)
            self._program.stdin.flush()
        except (BrokenPipeError, ValueError):
            pass  # the program ended: each line's reply says so

    def ask(self, line: str) -> Reply:
        """The reply to one line."""
        return self.send([line])[0].result()

    def _words(self, line: str) -> list[str]:
        return self.ask(line).words

    # ---- changes

    def put(self, name: bytes, value: bytes) -> None:
        self.change({name: value})

    def delete(self, name: bytes) -> None:
        self.change({name: None})

    def change(self, changes: dict[bytes, Optional[bytes]]) -> None:
        """Makes changes pending: for each name a value, or None to remove it."""
        lines = [f"del {name.hex()}" if value is None else f"put {name.hex()} ={value.hex()}" for name, value in changes.items()]
        for reply in self.send(lines):
            reply.result()

    def commit(self) -> tuple[int, bytes]:
        """The next version, and its root."""
        return _version(self._words("commit"))

    def fork(self, on: str = BASE) -> tuple[str, bytes]:
        """A fork of what is pending, as `fN`, and its root."""
        _, fork, root = self._words(f"fork {on}")
        return fork, bytes.fromhex(root)

    def land(self, fork: str) -> tuple[int, bytes]:
        """The last version that a fork and those below it made, and its root."""
        return _version(self._words(f"land {fork}"))

    def drop(self, fork: str) -> int:
        """How many forks are gone."""
        return int(self._words(f"drop {fork}")[1])

    def clear(self) -> None:
        """Drops what is pending: no line does that, so a fork of it is made and dropped."""
        self.drop(self.fork()[0])

    def pin(self, version: int) -> int:
        """The place at which a version is pinned."""
        return int(self._words(f"pin {version}")[1])

    def unpin(self, place: int) -> int:
        """The version that was pinned there."""
        return int(self._words(f"unpin {place}")[1])

    def prune(self, bound: int) -> int:
        """Retires the versions below a bound. Returns the floor."""
        return int(self._words(f"prune {bound}")[2])

    def compact(self) -> int:
        """The new generation of the files."""
        return int(self._words("compact")[1])

    # ---- reads

    def get(self, name: bytes, base: str = BASE) -> Optional[bytes]:
        """The value of a name, or None. This trusts the store: `prove` and `look_up` don't."""
        return self.values([name], base)[name]

    def values(self, names: Iterable[bytes], base: str = BASE) -> dict[bytes, Optional[bytes]]:
        """The value of each name, or None, all asked at once."""
        asked = list(names)
        replies = self.send(f"get {base} {name.hex()}" for name in asked)
        return {name: _value(reply.result().words) for name, reply in zip(asked, replies)}

    def root(self, base: str = BASE) -> bytes:
        return bytes.fromhex(self._words(f"root {base}")[1])

    def prove(self, name: bytes, base: str = BASE) -> bytes:
        """The reply, for `look_up`."""
        return self.ask(f"prove {base} {name.hex()}").text

    def chunk(self, start: int, count: int = 1_000, base: str = BASE) -> bytes:
        """The reply, for `Chunks.take`."""
        return self.ask(f"chunk {base} {start} {count}").text

    def count(self, base: str = BASE) -> int:
        return int(self._words(f"count {base}")[1])

    def nth(self, place: int, base: str = BASE) -> tuple[bytes, bytes]:
        """The key at a place, and its value."""
        _, key, value = self._words(f"nth {base} {place}")
        return bytes.fromhex(key), bytes.fromhex(value[1:])

    def status(self) -> dict[str, int]:
        """The store's numbers."""
        words = self._words("status")[1:]
        return {name: int(number) for name, number in zip(words[::2], words[1::2])}

    # ---- the end

    def close(self) -> None:
        """Ends the program. Raises Ended if its status isn't 0."""
        self._close_input()
        self._replies.thread.join()
        ended = self._replies.expect().exception()
        if isinstance(ended, Ended) and ended.status:
            raise ended

    def kill(self) -> None:
        """Ends the program at once, as a power cut would. What was acknowledged is in the files."""
        self._program.kill()
        self._replies.thread.join()
        self._close_input()

    def _close_input(self) -> None:
        assert self._program.stdin is not None
        try:
            self._program.stdin.close()
        except BrokenPipeError:
            pass


def _value(words: list[str]) -> Optional[bytes]:
    return None if words == ["none"] else bytes.fromhex(words[1][1:])


def _version(words: list[str]) -> tuple[int, bytes]:
    return int(words[1]), bytes.fromhex(words[2])
