"""The clients that docs/CLIENTS.md shows in C and in JavaScript: each is cut out, built, and run on the reply that the document shows, and on one
that says another value."""
import os
import re
import shutil
import subprocess
import tempfile

from doc_blocks import TOP, Differs, blocks_of

DOCUMENT = "docs/CLIENTS.md"
CLIENTS = os.path.join(TOP, "clients")
SECONDS = 60
IN_BROWSERS, IN_NODE = "load(fetch('jelly.wasm'))", "load(await readFile('jelly.wasm'))"


def block(language: str) -> str:
    """The one block of a language."""
    return next(it.text for it in blocks_of(DOCUMENT) if it.language == language)


def shown(pattern: str) -> str:
    """What the document's example of a reply has at a group of a pattern."""
    found = next(filter(None, (re.search(pattern, it.text) for it in blocks_of(DOCUMENT) if it.section == "ICS-23" and it.language == "python")))
    return found[1]


def reply() -> str:
    """A reply on the name 61, with its value."""
    return shown(r'(?s)reply = b"""(.*?)"""')


def forged() -> str:
    """The same with another value."""
    return reply().replace("claim =31", "claim =32")


def saved(folder: str, name: str, text: str) -> str:
    path = os.path.join(folder, name)
    with open(path, "w", encoding="utf-8") as it:
        it.write(text)
    return path


def expect(words: list, folder: str, text: str, wanted: tuple) -> None:
    """A command ends with a status and prints something, on standard error too."""
    ran = subprocess.run(words, cwd=folder, input=text, stdout=subprocess.PIPE, stderr=subprocess.STDOUT, encoding="utf-8", timeout=SECONDS)
    if (ran.returncode, ran.stdout) != wanted:
        raise Differs(f"{DOCUMENT}: {' '.join(words)}: {ran.returncode} and {ran.stdout!r} in place of {wanted}")


def try_in_c(archive: str) -> None:
    """Over the archive of the library: the value is printed, or nothing, with status 1."""
    with tempfile.TemporaryDirectory() as room:
        source, program = saved(room, "main.c", block("c")), os.path.join(room, "main")
        expect(["cc", "-O2", "-Wall", "-Wextra", "-Werror", "-I" + os.path.join(CLIENTS, "c"), source, archive, "-o", program], room, "", (0, ""))
        expect([program], room, reply(), (0, "1"))
        expect([program], room, forged(), (1, ""))


def in_node(text: str) -> str:
    """The lines of JavaScript for Node, as their comment has it, with a root, a name and a reply of their own."""
    lines = block("js")
    if lines.count(IN_BROWSERS) != 1 or IN_NODE not in lines:
        raise Differs(f"{DOCUMENT}: the lines of JavaScript don't load the module as they did")
    root = shown(r'root = bytes\.fromhex\("([0-9a-f]*)"\)')
    given = f"const root = bytesOf('{root}'), name = bytesOf('61'), reply = new TextEncoder().encode(`{text}`);\n"
    imports = "import { readFile } from 'node:fs/promises';\nimport { bytesOf } from './jelly.mjs';\n"
    return imports + given + lines.replace(IN_BROWSERS, IN_NODE)


def try_in_node(node: list, module: str) -> None:
    """By a command for Node, over the module of the library: the value is printed, or why it is refused."""
    with tempfile.TemporaryDirectory() as room:
        shutil.copy(module, os.path.join(room, "jelly.wasm"))
        shutil.copy(os.path.join(CLIENTS, "javascript", "jelly.mjs"), room)
        expect([*node, "--no-warnings", saved(room, "right.mjs", in_node(reply()))], room, "", (0, "31\n"))
        why = "2 refused 2: the leaf isn't that of the value, or it is the name's own and absence is claimed\n"
        expect([*node, "--no-warnings", saved(room, "forged.mjs", in_node(forged()))], room, "", (0, why))
