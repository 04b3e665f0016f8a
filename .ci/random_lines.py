"""Random scripts, for scripts that test the program."""
import random

from plain_store import GRAMMAR, MAX_NAME, MAX_VALUE, PLACES, base_in, name_in, stored_in


class Drawing:
    """Draws the scripts of sessions. Numbers of versions and forks are guessed by how far the others may be. Forks live as long
    as nobody commits, so there are many commits in some runs, and few in others."""

    WEIGHTS = {
        "put": 24, "del": 6, "fork": 7, "land": 5, "drop": 2, "get": 14, "root": 5, "prove": 4, "chunk": 2,
        "count": 3, "nth": 3, "pin": 4, "unpin": 3, "prune": 1, "compact": 1, "status": 3, "wrong": 3,
    }
    WRONG = ["", "session ", "put 61", "put 6 =31", "put 61 31", "get head  61", "commit ", "land 0", "prove f0 61", "chunk v0 0 0",
             "root v01", "pin -1", "COMMIT", "unpin 18446744073709551616", "x" * 8501, "put 61 =" + "0" * 8194]

    def __init__(self, sessions, lines):
        self.sessions, self.lines, self.at = sessions, lines, 0
        self.weights = {**self.WEIGHTS, "commit": random.choice([5, 1, 0.1])}
        for word in GRAMMAR:
            self.weights.setdefault(word, 3)
        self.names = [f"{n:02x}" for n in range(12)] + [f"{n:04x}" for n in range(4)] + ["61" * MAX_NAME]

    def script(self):
        words = random.choices(list(self.weights), self.weights.values(), k=self.lines)
        for self.at, word in enumerate(words):
            yield getattr(self, word, self.plain)(word)

    def guess(self, word):
        """About how often a word has been done by now, in this session or in all."""
        far = self.at if random.random() < 0.8 else random.randrange(self.lines)
        return far * self.weights[word] / sum(self.weights.values()) * random.choice([1, self.sessions, self.sessions])

    def version(self):
        return int((self.guess("commit") + self.guess("land") / 20) * random.uniform(0.5, 1.1))

    def fork_word(self):
        return f"f{int(self.guess('fork') * random.uniform(0.6, 0.9))}"

    def base(self, kinds):
        kind = random.choice(kinds)
        if kind == "f":
            return self.fork_word()
        return {"h": "head", "v": f"v{self.version()}", "p": f"p{random.randrange(PLACES)}"}[kind]

    def name(self):
        return random.choice(self.names)

    def put(self, word):
        size = random.choice([0, 1, 1, 2, 8, 32, 55, 56, 64, MAX_VALUE if random.random() < 0.1 else 3])
        return f"put {self.name()} ={random.randbytes(size).hex()}"

    def plain(self, word):
        """A command without words after it, with a name, with a base, or with both."""
        stored = stored_in in GRAMMAR[word]
        bases = [self.base("hhvvp" if stored else "hhvvpff")] if stored or base_in in GRAMMAR[word] else []
        return " ".join([word, *bases, *([self.name()] if name_in in GRAMMAR[word] else [])])

    def fork(self, word):
        return f"fork {self.base('hhf')}"

    def land(self, word):
        return f"{word} {self.fork_word()}"

    drop = land

    def chunk(self, word):
        return f"chunk {self.base('hvp')} {random.choice([0, 0, 1, 5, 20])} {random.choice([1, 2, 7, 1000])}"

    def nth(self, word):
        return f"nth {self.base('hvp')} {random.randrange(16)}"

    def pin(self, word):
        return f"pin {self.version()}"

    def unpin(self, word):
        return f"unpin {random.randrange(PLACES + 1)}"

    def prune(self, word):
        return f"prune {int(self.version() * random.random() ** 2)}"

    def wrong(self, word):
        return random.choice(self.WRONG)
