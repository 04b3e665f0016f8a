"""Calls of the program, for scripts that test it."""
import os
import re
import shutil
import subprocess
import tempfile

TOP = os.path.dirname(os.path.dirname(os.path.abspath(__file__)))


class Differs(Exception):
    """What the program did isn't what is expected."""


def compare(what, found, expected):
    if found != expected:
        raise Differs(f"{what}: {found} in place of {expected}")


def built():
    """The program of this checkout."""
    subprocess.run([os.path.join(TOP, "jellystore"), "-", "run"], stdin=subprocess.DEVNULL, check=True)
    return os.path.join(TOP, "crates", "jellystore", "out", "jellystore")


def joined(lines):
    return "".join(line + "\n" for line in lines).encode()


def ended(program, folder, words, text):
    """The status of a run, what it wrote, and its first line on standard error."""
    run = subprocess.run([program, folder, *words.split(" ")], input=text, capture_output=True, timeout=600)
    return run.returncode, run.stdout, run.stderr.decode().partition("\n")[0]


def asked(program, folder, lines):
    """The replies of a run to lines, each without its number."""
    status, text, why = ended(program, folder, "run", joined(lines))
    compare("a run", (status, why), (0, ""))
    return [line.partition(" ")[2] for line in text.decode().splitlines()]


def chunks(program, folder, version, count):
    """The entries of a version, as chunks of this many."""
    entries = int(asked(program, folder, [f"count v{version}"])[0].split(" ")[2])
    status, text, why = ended(program, folder, "run", joined(f"chunk v{version} {at} {count}" for at in range(0, entries, count)))
    compare("the chunks", (status, why), (0, ""))
    return text


def newest(program, folder):
    """The newest version of a folder that no run has open, and its root."""
    status, root = asked(program, folder, ["status", "root head"])
    return int(status.split(" ")[9]), root.split(" ")[2]


def shown(program, folder):
    """The same of a folder that a run has open, by a copy; or None if its files aren't there yet. While the run only adds records, the copy
    holds what a stop would leave."""
    with tempfile.TemporaryDirectory() as copy:
        try:
            for name in "a.jf", "b.jf":
                shutil.copy(os.path.join(folder, name), copy)
        except FileNotFoundError:
            return None
        return newest(program, copy)


def blocks_script(place):
    """The script blocks.py of docs/OPERATING.md."""
    with open(os.path.join(TOP, "docs", "OPERATING.md"), encoding="utf-8") as it:
        shown_there = re.search(r"(?s)`blocks\.py`.*?```python\n(.*?)```", it.read())
    path = os.path.join(place, "blocks.py")
    with open(path, "w", encoding="utf-8") as it:
        it.write(shown_there[1])
    return path
