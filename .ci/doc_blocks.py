"""Whether the program prints what documents show: their blocks of commands with output, of scripts with replies, and of Python.

Each document has a room of its own, in memory where there is any: an empty folder with the program as `jellystore` and on the path, and with
what .ci/, clients/ and docs/ have. /tmp/NAME in a document is a folder NAME in that room.

- In a block `text`, a line that begins with `$ ` is a command for bash, and the lines up to the next one are what it prints, on standard
  error too. Blocks are run in their order, so that a later one finds what an earlier one left.
- A block `text` of commands of a script, and the next one, if it has replies: a new store in memory answers so. If the replies begin with a
  line `session`, in the mode `serve`; of two such blocks after a script one has to be the output.
- The blocks that EXAMPLES names: what a mode writes after a script.
- A block `python` is run. What it prints has to stand in the comments after its calls of `print`, each up to a semicolon, a colon, two dots or its
  end; or, without comments, somewhere in the document's text.
- If the line before a block `python` or `sh` ends with the name of a file in backquotes, it is saved under that name in place.
- The blocks `sh` that doc_shell.py has: what they print, with other words for those in capitals.

Digits of a time, as in `0.6 s`, `13 ms` and `5 us`, and of a size in KB or MB, are not compared, nor is how many spaces stand before them. All
other bytes are. Other blocks `sh` are not run: they build something, or need another machine. Blocks `c` and `js` are, by `.ci/clients`.
"""
import os
import re
import subprocess
import sys
import tempfile
from typing import Iterator, NamedTuple, Optional

from doc_shell import Shell, commands_of, shell_of
from plain_store import GRAMMAR

TOP = os.path.dirname(os.path.dirname(os.path.abspath(__file__)))
MEMORY = "/dev/shm"
DOCUMENTS = ("README.md", "docs/FORMATS.md", "docs/CALLERS.md", "docs/CLIENTS.md", "docs/OPERATING.md")
LENT = (".ci", "clients", "docs")
SECONDS = 600
COMMANDS = set(GRAMMAR)
TIME = re.compile(r" *\d[\d.,]* (?=(?:s|ms|us|KB|MB)\b)")
TWO = "put 61 =31\nput 62 =32\ncommit\n"


class Block(NamedTuple):
    """A block of a document: the number of its first line, its section and language, what it holds, and the paragraph before it."""

    line: int
    section: str
    language: str
    text: str
    before: str


class Example(NamedTuple):
    """What a mode writes on an input, perhaps on what another one writes, perhaps after a script over the same folder, of whose first file then one
    byte is changed; and of how many of its first lines nothing is shown."""

    words: str
    input: "str | Example" = ""
    script: str = ""
    changed: Optional[int] = None
    dropped: int = 0


CHECKED_LANDING = "a.jf size 223 generation 1 base 0 floor 0 head 1 records 222 behind 0\n"
ONE = "put 61 =31\ncommit\n"
ONE_CHUNK = "chunk v1 0 1\nchunk v1 1 1\n"
# By the section of docs/FORMATS.md, and the first words of the block.
EXAMPLES = {
    ("Chunk blocks", "1 ok chunk 1 2 2"): Example("run", TWO + ONE_CHUNK + "chunk v1 2 1\n", dropped=3),
    ("Blocks of many claims", "many 3 5"): Example("many 1", "62\n63\n61\n62\n", TWO),
    ("Blocks of many claims", "many 1 5"): Example("many 1", "62\n", TWO),
    ("Restoring a version", "restored 1 3e92"): Example(
        "restore 1 3e92b77a6f4a7dcc426f134b3415f3af7eb39e5c8ac7599c94f5a3c83fe07425", Example("run", TWO + ONE_CHUNK, dropped=3)
    ),
    ("Generated scripts", "refused 0"): Example("generate 1 1 1"),
    ("Totals", "total 1 35b5"): Example("history 0"),
    ("Totals", "total 3 78f4"): Example("history 1", script="commit\ncommit\n"),
    ("Landing blocks", "landing 1 9bb7"): Example("lead", "put 61 =31\ncommit\n"),
    ("Checking files", "a.jf size 101 "): Example("check", script="status\n"),
    ("Checking files", CHECKED_LANDING + "b.jf size 188"): Example("check", script=ONE + "compact\n"),
    ("Checking files", CHECKED_LANDING + "b.jf size 0"): Example("check", script=ONE, changed=118),
}


class Differs(Exception):
    """A block's output isn't what is shown."""


def blocks_of(name: str) -> Iterator[Block]:
    with open(os.path.join(TOP, name), encoding="utf-8") as it:
        text = it.read()
    section = ""
    for found in re.finditer(r"(?ms)^#+ ([^\n]*)$|^```(\w*)\n(.*?)^```$", text):
        if found[1]:
            section = found[1]
        else:
            before = text[: found.start()].rstrip().rpartition("\n\n")[2]
            yield Block(text.count("\n", 0, found.start()) + 1, section, found[2], found[3], before)


def plain(text: str) -> str:
    """The text without digits of times, and without spaces at the ends of lines."""
    return "\n".join(TIME.sub(" # ", line).strip() for line in text.splitlines())


def compare(found: str, shown: str) -> None:
    if plain(found) != plain(shown):
        raise Differs(f"--- shown\n{shown}--- found\n{found}")


def change_byte(path: str, at: int) -> None:
    with open(path, "r+b") as it:
        it.seek(at)
        byte = it.read(1)[0]
        it.seek(at)
        it.write(bytes([byte ^ 1]))


class Room:
    """Where the blocks of one document are run."""

    def __init__(self, place: str, program: str, document: str) -> None:
        self.place, self.program, self.document = place, program, document
        os.mkdir(os.path.join(place, "bin"))
        for link in "jellystore", "bin/jellystore":
            os.symlink(program, os.path.join(place, link))
        for name in LENT:
            os.symlink(os.path.join(TOP, name), os.path.join(place, name))
        os.makedirs(os.path.join(place, "tmp", "demo"))
        self.path = os.pathsep.join([os.path.join(place, "bin"), os.environ["PATH"]])

    def here(self, text: str) -> str:
        return text.replace("/tmp/", os.path.join(self.place, "tmp", ""))

    def run(self, words: list, text: str = "", errors: int = subprocess.STDOUT) -> str:
        """What a command prints, standard error between unless that goes elsewhere."""
        clients = os.path.join(TOP, "clients", "python")
        environment = {**os.environ, "PATH": self.path, "PYTHONPATH": clients, "PYTHONDONTWRITEBYTECODE": "1"}
        pipes = {"stdout": subprocess.PIPE, "stderr": errors, "encoding": "utf-8"}
        return subprocess.run(words, input=text, cwd=self.place, env=environment, timeout=SECONDS, **pipes).stdout

    def mode(self, folder: str, words: str, text: str) -> str:
        """What a mode writes."""
        return self.run([self.program, folder, *words.split()], text, subprocess.DEVNULL)

    # ---- blocks

    def commands(self, text: str) -> None:
        """Runs the commands of a block, in one shell."""
        _, *pieces = re.split(r"(?m)^\$ (.*)\n", text)
        script = "".join(f"{command}\nprintf '\\036'\n" for command in pieces[::2])
        found = self.run(["bash", "-c", self.here(script)]).replace(os.path.join(self.place, "tmp", ""), "/tmp/")
        for command, printed, shown in zip(pieces[::2], found.split("\036"), pieces[1::2]):
            try:
                compare(printed, shown)
            except Differs as why:
                raise Differs(f"$ {command}\n{why}") from None

    def answers(self, script: str, shown: list) -> None:
        """A script over a new store. Its output has to be one of those that are shown."""
        mode = "serve" if shown[0].startswith("session") else "run"
        found = self.mode("-", mode, script)
        compare(found, found if found in shown else shown[0])

    def written(self, it: "str | Example") -> str:
        """A text, or what an example writes."""
        if isinstance(it, str):
            return it
        with tempfile.TemporaryDirectory(dir=self.place) as folder:
            if it.script:
                self.mode(folder, "run", it.script)
            if it.changed is not None:
                change_byte(os.path.join(folder, "a.jf"), it.changed)
            lines = self.mode(folder, it.words, self.written(it.input)).splitlines(True)
        return "".join(lines[it.dropped :])

    def shell(self, it: Shell, text: str) -> None:
        """Runs a block of commands without output."""
        compare(self.run(["bash", "-c", commands_of(it, text)]), it.printed)

    def save(self, name: str, text: str) -> None:
        with open(os.path.join(self.place, name), "w", encoding="utf-8") as it:
            it.write(text)

    def python(self, block: Block, text: str) -> None:
        """Runs a block of Python, of a document with this text."""
        printed = self.run([sys.executable, "-c", self.here(block.text)]).splitlines()
        comments = [re.split(r"; |: |\.\.|$", it, maxsplit=1)[0] for it in re.findall(r"(?m)^.*\bprint\(.*?\)  +# (.*)$", block.text)]
        if comments:
            if len(comments) != len(printed) or not all(line.startswith(comment) for line, comment in zip(printed, comments)):
                raise Differs(f"--- shown\n{comments}\n--- found\n{printed}")
        elif not all(line in text for line in printed):
            raise Differs(f"--- found, and not in the document\n{printed}")


# ---- documents


def is_script(text: str) -> bool:
    lines = text.splitlines()
    return bool(lines) and all(line.split(" ")[0] in COMMANDS | {"session"} for line in lines) and lines[0] != "session"


def are_replies(text: str) -> bool:
    return re.match(r"\d+ (ok|no) |session\n", text) is not None


def replies_after(blocks: list, place: int) -> list:
    """The blocks after a script that show what it is answered: one, or two of which each may come."""
    shown = [it.text for it in blocks[place + 1 : place + 3]]
    count = 2 if len(shown) == 2 and all(it.startswith("session\n") for it in shown) else 1
    return [it for it in shown[:count] if are_replies(it)]


def example_of(block: Block) -> Optional[Example]:
    return next((it for (section, front), it in EXAMPLES.items() if section == block.section and block.text.startswith(front)), None)


def shell_at(room: Room, blocks: list, place: int) -> Optional[Shell]:
    """How a block `sh` is run, if it can be."""
    block = blocks[place]
    if block.language != "sh" or not room.document.endswith("OPERATING.md"):
        return None
    return shell_of(block.section, block.text, [it.text for it in blocks[:place] if it.section == block.section])


def try_block(room: Room, blocks: list, place: int, text: str) -> bool:
    """Runs a block if it is one that can be. Raises Differs."""
    block = blocks[place]
    if block.language in ("python", "sh") and (saved := re.search(r"`(\w+\.\w+)`[^`\n]*\Z", block.before)):
        room.save(saved[1], block.text)
    elif shell := shell_at(room, blocks, place):
        room.shell(shell, block.text)
    elif block.language == "python":
        room.python(block, text)
    elif block.language == "text" and re.search(r"(?m)^\$ ", block.text):
        room.commands(block.text)
    elif block.language == "text" and is_script(block.text) and replies_after(blocks, place):
        room.answers(block.text, replies_after(blocks, place))
    elif block.language == "text" and room.document.endswith("FORMATS.md") and (it := example_of(block)):
        compare(room.written(it), block.text)
    else:
        return False
    return True


def try_document(name: str, program: str) -> tuple:
    """How many blocks were run, and what differs in them."""
    blocks, count, wrong = list(blocks_of(name)), 0, []
    with open(os.path.join(TOP, name), encoding="utf-8") as it:
        text = it.read()
    with tempfile.TemporaryDirectory(dir=MEMORY if os.path.isdir(MEMORY) else None) as place:
        room = Room(place, program, name)
        for number, block in enumerate(blocks):
            try:
                count += try_block(room, blocks, number, text)
            except Differs as why:
                count += 1
                wrong.append(f"{name}:{block.line}: {why}")
    return count, wrong
