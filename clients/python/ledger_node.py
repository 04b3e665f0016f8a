"""An example of a ledger node over a store: accounts in blocks, blocks that aren't final yet as forks, a reorganisation, old heights pruned
behind, a crash and what is made of it, a folder from an older copy, and proofs for clients. docs/CLIENTS.md walks through it.

usage: python3 ledger_node.py [--program PATH] [--accounts N] [--blocks N]

It takes some ten seconds, in a new folder where temporary files are. Ends with an exception if anything isn't as it has to be.
"""
import argparse
import filecmp
import json
import os
import random
import shutil
import tempfile
import time
from typing import Callable, Iterable, NamedTuple, Optional

from jellystore import Chunks, Heights, RolledBack, key_of, look_up, root_of, value_hash

HEIGHT = b"height"
"""The name under which each block puts its height, so that a version tells which block made it."""
DEPTH = 6
"""How many blocks stay forks, as others may still come in their place."""
KEPT = 20
"""How many final heights can be asked for."""
MAX_BATCH = 10_000
TRANSFERS = 100
BALANCE = 1_000_000


# ---- the ledger


class Account(NamedTuple):
    balance: int
    nonce: int

    def encoded(self) -> bytes:
        return self.balance.to_bytes(16, "big") + self.nonce.to_bytes(8, "big")


class Transfer(NamedTuple):
    sender: int
    receiver: int
    amount: int


class Block(NamedTuple):
    height: int
    transfers: list[Transfer]


class Fork(NamedTuple):
    """A block that isn't final, the fork that it is in the store, and the root of that."""

    block: Block
    fork: str
    root: bytes


Values = dict[bytes, Optional[bytes]]


def account_name(number: int) -> bytes:
    return b"account %d" % number


def decoded(value: Optional[bytes]) -> Account:
    assert value is not None
    return Account(int.from_bytes(value[:16], "big"), int.from_bytes(value[16:], "big"))


def names_of(block: Block) -> set[bytes]:
    """The names of the accounts that a block reads and changes."""
    return {account_name(number) for transfer in block.transfers for number in (transfer.sender, transfer.receiver)}


def executed(block: Block, values: Values) -> Values:
    """What a block makes of the values of its accounts, with its height."""
    accounts = {name: decoded(value) for name, value in values.items()}
    for transfer in block.transfers:
        sender, receiver = account_name(transfer.sender), account_name(transfer.receiver)
        balance, nonce = accounts[sender]
        accounts[sender] = Account(balance - transfer.amount, nonce + 1)
        balance, nonce = accounts[receiver]
        accounts[receiver] = Account(balance + transfer.amount, nonce)
    return {**{name: account.encoded() for name, account in accounts.items()}, HEIGHT: block.height.to_bytes(8, "big")}


def genesis(count: int) -> dict[bytes, bytes]:
    return {**{account_name(number): Account(BALANCE, 0).encoded() for number in range(count)}, HEIGHT: bytes(8)}


# ---- the node


class Log:
    """The blocks that aren't final, a line each, in a file of the node's own: forks end with the run of the store. A block takes the place of
    the one of its height and of all above it."""

    def __init__(self, path: str) -> None:
        self.path = path
        self._drop_cut_line()

    def _drop_cut_line(self) -> None:
        """Drops what a crash has left of the line that was being written."""
        with open(self.path, "ab+") as it:
            it.seek(0)
            it.truncate(it.read().rfind(b"\n") + 1)

    def add(self, block: Block) -> None:
        with open(self.path, "a", encoding="ascii") as it:
            it.write(json.dumps(block) + "\n")
            it.flush()
            os.fsync(it.fileno())

    def blocks(self) -> list[Block]:
        """The blocks, the lowest first."""
        found: dict[int, Block] = {}
        with open(self.path, encoding="ascii") as it:
            for height, transfers in map(json.loads, it):
                found = {other: block for other, block in found.items() if other < height}
                found[height] = Block(height, [Transfer(*transfer) for transfer in transfers])
        return list(found.values())


class Node:
    """A node whose store, log and note of the newest version stand in a folder. The first one begins with a genesis; a later one over the same
    folder goes on where the one before ended, however it did. Raises RolledBack if the store isn't what that one has left.

    `announce` is called with the height and the root of each block that is final, more than once after a crash: a real node signs them."""

    def __init__(self, place: str, program: str, state: dict[bytes, bytes], announce: Callable[[int, bytes], None]) -> None:
        folder = os.path.join(place, "store")
        os.makedirs(folder, exist_ok=True)
        self.log, self.heights = Log(os.path.join(place, "blocks")), Heights(os.path.join(place, "newest"))
        self.announce = announce
        self.store = self.heights.open(folder, program)
        self.chain: list[Fork] = []
        if self.store.get(HEIGHT) is None:
            self._begin(state)
        self.final = int.from_bytes(self.store.get(HEIGHT) or b"", "big")
        announce(self.final, self.store.root())
        self._recover()

    def _begin(self, state: dict[bytes, bytes]) -> None:
        """Lands the genesis. A version has at most 10,000 changed keys, so it may take several; the last one has the height."""
        names = list(state)
        for start in range(0, len(names), MAX_BATCH):
            self.store.change({name: state[name] for name in names[start : start + MAX_BATCH]})
            self.heights.note(*self.store.commit())

    def _recover(self) -> None:
        """Makes forks of the blocks in the log that haven't landed."""
        for block in self.log.blocks():
            if block.height > self.final:
                self._fork(block)

    def version_of(self, height: int) -> int:
        """The version that a final height is: each block lands one."""
        assert self.heights.newest is not None
        return self.heights.newest[0] - self.final + height

    def oldest(self) -> int:
        """The lowest height that can be asked for."""
        return max(0, self.store.status()["retired"] - self.version_of(0))

    def forked(self) -> dict[int, bytes]:
        """The roots of the blocks that aren't final, by height."""
        return {it.block.height: it.root for it in self.chain}

    def add(self, block: Block) -> None:
        """Takes a block on the newest one, and makes the lowest one final if it is deep enough."""
        self.log.add(block)
        self._fork(block)
        if len(self.chain) > DEPTH:
            self.finalize()

    def _fork(self, block: Block) -> None:
        base = self.chain[-1].fork if self.chain else "head"
        self.store.change(executed(block, self.store.values(names_of(block), base)))
        self.chain.append(Fork(block, *self.store.fork(base)))

    def finalize(self) -> None:
        """Lands the lowest fork. Heights that are too old are given up, in memory at once and in the files with the next `compact`."""
        block, fork, _ = self.chain.pop(0)
        version, root = self.store.land(fork)
        self.heights.note(version, root)
        self.final = block.height
        self.announce(block.height, root)
        if block.height % 10 == 0 and block.height > KEPT:
            self.store.prune(self.version_of(block.height - KEPT))

    def reorganise(self, height: int, blocks: Iterable[Block]) -> int:
        """Drops the blocks from a height on, which aren't final, and takes others in their place. Returns how many are gone."""
        place = next(place for place, it in enumerate(self.chain) if it.block.height == height)
        gone = self.store.drop(self.chain[place].fork)
        del self.chain[place:]
        for block in blocks:
            self.add(block)
        return gone

    def crash(self) -> None:
        """Ends the store in the midst of a landing, as a power cut may."""
        self.store.send([f"land {self.chain[0].fork}"])
        time.sleep(0.001)
        self.store.kill()

    def close(self) -> None:
        self.store.close()


# ---- who asks


class Client:
    """Knows the roots of final heights, in a real ledger by signed headers, and trusts no node."""

    def __init__(self, roots: dict[int, bytes]) -> None:
        self.roots = roots

    def account(self, height: int, name: bytes, reply: bytes) -> Optional[Account]:
        """The account of a name at a height, or None if there is none. Raises Refused if the reply doesn't show it."""
        value = look_up(self.roots[height], name, reply)
        return None if value is None else decoded(value)


class Witness:
    """Executes the same blocks over a dictionary, to compare."""

    def __init__(self, state: dict[bytes, bytes]) -> None:
        self.values: Values = dict(state)

    def execute(self, block: Block) -> None:
        self.values.update(executed(block, {name: self.values[name] for name in names_of(block)}))

    def root(self) -> bytes:
        entries = ((key_of(name), value_hash(value or b"")) for name, value in self.values.items())
        return root_of(sorted(entries))


# ---- the story


class Story:
    """A node of drawn blocks, from its genesis on, and what befalls it."""

    def __init__(self, place: str, program: str, accounts: int, blocks: int) -> None:
        self.place, self.program, self.accounts, self.blocks = place, program, accounts, blocks
        self.store, self.copy = os.path.join(place, "store"), os.path.join(place, "older copy")
        self.drawn, self.began = random.Random(7), time.monotonic()
        self.state = genesis(accounts)
        self.witness = Witness(self.state)
        self.headers: dict[int, bytes] = {}
        self.node = self.started()

    def started(self) -> Node:
        return Node(self.place, self.program, self.state, self.headers.__setitem__)

    def say(self, *words: object) -> None:
        print(f"{time.monotonic() - self.began:5.1f} s ", *words, flush=True)

    def block(self, height: int) -> Block:
        """A block of drawn transfers."""
        pairs = (self.drawn.sample(range(self.accounts), 2) for _ in range(TRANSFERS))
        return Block(height, [Transfer(*pair, self.drawn.randrange(1, 50)) for pair in pairs])

    def grow(self, first: int, last: int) -> None:
        """Adds blocks of these heights."""
        for height in range(first, last + 1):
            self.node.add(self.block(height))

    def reorganise(self, height: int) -> None:
        gone = self.node.reorganise(height, [self.block(height + place) for place in range(5)])
        self.say(f"reorganisation: {gone} blocks from height {height} on are gone, and 5 others in their place")

    def compact(self) -> None:
        self.node.store.compact()
        numbers = self.node.store.status()
        self.say("compacted:", ", ".join(f"{name} {numbers[name]}" for name in ("generation", "floor", "head", "kept", "forks")))

    def crash(self) -> None:
        """A crash, and a node that goes on: the blocks that weren't final have the roots from before."""
        before = self.node.forked()
        self.node.crash()
        shutil.copytree(self.store, self.copy)
        self.node = self.started()
        assert before == {height: self.headers[height] for height in before if height <= self.node.final} | self.node.forked()
        self.say("killed in a landing, and opened again: the blocks that aren't final are forks again, with the roots from before")

    def finish(self) -> None:
        """All blocks become final, and the witness comes to the same root."""
        while self.node.chain:
            self.node.finalize()
        for block in self.node.log.blocks():
            self.witness.execute(block)
        assert self.witness.root() == self.headers[self.node.final] == self.node.store.root()
        self.say(f"height {self.node.final} is final; heights from {self.node.oldest()} on are kept")

    def prove(self, count: int) -> None:
        """Proofs for clients, at heights that are kept, of accounts and of names without one."""
        client, size, oldest = Client(self.headers), 0, self.node.oldest()
        for _ in range(count):
            height, number = self.drawn.randrange(oldest, self.node.final + 1), self.drawn.randrange(self.accounts * 5 // 4)
            reply = self.node.store.prove(account_name(number), f"v{self.node.version_of(height)}")
            assert (client.account(height, account_name(number), reply) is not None) == (number < self.accounts)
            size += len(reply)
        self.say(f"{count} proofs judged by headers alone, {size // count} bytes each")

    def move(self) -> None:
        """The whole state in chunks, as another node takes it over from one that it doesn't trust."""
        chunks = Chunks(self.headers[self.node.final])
        for start in range(0, self.node.store.count(), 1_000):
            chunks.take(self.node.store.chunk(start))
        assert chunks.is_whole() and dict(chunks.entries) == {key_of(name): value for name, value in self.witness.values.items()}
        self.say(f"{len(chunks.entries):,} entries taken over in chunks")

    def roll_back(self) -> None:
        """The store's folder is replaced by the older copy, which is sound by itself. The next node notices it, and nothing is written."""
        shutil.rmtree(self.store)
        shutil.copytree(self.copy, self.store)
        try:
            self.started()
            raise AssertionError("an older store was opened")
        except RolledBack as found:
            assert self.node.heights.newest is not None and found.head < self.node.heights.newest[0]
            self.say("an older copy in place of the store: refused")
        _, others, faults = filecmp.cmpfiles(self.store, self.copy, ["a.jf", "b.jf"], shallow=False)
        assert not others and not faults

    def tell(self) -> None:
        """The whole story."""
        begun, half = self.blocks // 4, self.blocks // 2
        self.say(f"genesis: {self.accounts:,} accounts in versions 1 to {self.node.version_of(0)}")
        assert self.headers[0] == self.witness.root()
        self.grow(1, begun)
        self.say(f"{begun} blocks, of which {self.node.final} are final")
        self.reorganise(begun - 3)
        self.grow(begun + 2, half)
        self.compact()
        self.crash()
        self.grow(half + 1, self.blocks)
        self.finish()
        self.prove(500)
        self.move()
        self.node.close()
        self.roll_back()


def main() -> None:
    words = argparse.ArgumentParser(description=__doc__, formatter_class=argparse.RawDescriptionHelpFormatter)
    words.add_argument("--program", default="jellystore")
    words.add_argument("--accounts", type=int, default=20_000)
    words.add_argument("--blocks", type=int, default=100)
    asked = words.parse_args()
    with tempfile.TemporaryDirectory() as place:
        Story(place, asked.program, asked.accounts, asked.blocks).tell()


if __name__ == "__main__":
    main()
