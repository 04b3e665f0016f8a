"""Whether what documents name is there: files, crates, sections, definitions, functions, clauses and fields.

What is looked at, outside of blocks of code:

- a crate: each word `jf_..` or `test_..` (with small letters alone, so `test_SUBJECT` is none) must be a folder of crates/;
- a path: a word that begins with docs/, crates/, clients/ or .ci/, and, in backquotes, one that ends as a source file does or begins with
  src/, specs/, proofs/, must-fail/ or wrong-bodies/. It may begin at the top, at the document's folder, or in a crate; a name without a
  slash may be that of any file. `jf_x/Y` and `jf_x/specs/Y` are the file Y of that crate, `specs/Y` that of any. A path is skipped if it
  stands for others, as crates/NAME, specs/F.antt and `proofs/module/function/`, or lies in a folder out/. A document may name a file as which
  a block is to be saved: its name stands in backquotes in the line before the block;
- a section: text in quotation marks after the name of a document, as in docs/FORMATS.md, "Replies", must be a heading there;
- a decision: a number after the name of their document, as in docs/DECISIONS.md, 3.7, must begin a heading there, and so must one after `see` in
  that document. There each number stands once, and in the part of its layer;
- a name: in backquotes, a word with an underscore, or with a second capital letter and a small one, must be declared in a source or be one that
  a source imports; or the end of a crate's name; or one of FOREIGN. `A::b` needs a file that declares b and speaks of A;
- a clause or field: a word in backquotes after `clause`, `clauses`, `field` or `fields`. If the record or function stands before it (`X`,
  field `y`) or after it (clause `y` of `X`), it must be one of that; otherwise one of any.

Whatever is none of these, such as commands, texts and values, is skipped: nothing shows what it is.
"""
import glob
import os
import re
import subprocess
from collections import Counter, defaultdict
from typing import Iterator, NamedTuple, Optional

TOP = os.path.dirname(os.path.dirname(os.path.abspath(__file__)))
SOURCES = (".rt", ".antt", ".py", ".mjs", ".c", ".h")
PATHS = (".md", ".txt", ".html", ".edit", *SOURCES)
FOLDERS = ("docs", "crates", "clients", ".ci")
IN_CRATES = ("src", "specs", "proofs", "must-fail", "wrong-bodies")
WORD = r"[A-Za-z_][A-Za-z0-9_]*"
LISTED = rf"`{WORD}`(?:(?:, | and )`{WORD}`)*"
STANDS_FOR_OTHERS = r"[A-Z]+|[A-Z]{2}[a-z]\w*|module|function"
FOREIGN = {"partition_point", "binary_search_by_key", "deref_mut", "also_owns", "sum_by_more"}
"""Words of the language and of its library that the code doesn't use."""
QUOTED = r'"[^"\n]+"(?:(?:, | and |, and )"[^"\n]+")*'
DECISIONS = "docs/DECISIONS.md"


class Wrong(NamedTuple):
    """A document, a line, and what it names that isn't there."""

    document: str
    line: int
    what: str


def tracked() -> list:
    """The files of the repository, also those that aren't committed yet."""
    ran = subprocess.run(["git", "ls-files", "-co", "--exclude-standard"], cwd=TOP, stdout=subprocess.PIPE, check=True, encoding="utf-8")
    return [name for name in ran.stdout.splitlines() if os.path.exists(os.path.join(TOP, name))]


def read(name: str) -> str:
    with open(os.path.join(TOP, name), encoding="utf-8") as it:
        return it.read()


def saved_in(text: str) -> list:
    """The names of files as which blocks of a document are to be saved."""
    return re.findall(r"`(\w+\.\w+)`[^\n`]*\n\n```(?:python|sh)\n", text)


# ---- what is there


def declared_in_rattle(text: str) -> Iterator[str]:
    """Names of functions, types, variants, fields, clauses and imports of a source in Rattle."""
    yield from re.findall(rf"\b(?:fn|struct|enum|trait|type|const|static|mod|ghost)\s+({WORD})", text)
    yield from re.findall(rf"(?m)^\s+({WORD})\s*(?:,|\(|\{{|$)", text)
    yield from re.findall(rf"(?m)^\s*(?:pub(?:\(crate\))? )?({WORD})\s*:", text)
    yield from re.findall(rf"\b(?:ensures|requires|invariant|shows)\s+({WORD})", text)
    yield from (name for line in re.findall(r"(?m)^(?:ghost |pub )*use [^;]*;", text) for name in re.findall(WORD, line))


def declared_in_logic(text: str) -> Iterator[str]:
    """Names of definitions, constructors, fields and imports of a file of definitions or proofs."""
    yield from re.findall(rf"(?m)^\s*(?:(?:pub|abbrev|record|data|codata|module|ghost|private)\s+)*({WORD})[^\n]*:", text)
    yield from re.findall(rf"(?m)^\s*(?:record|data)\s+(?:pub\s+)?({WORD})", text)
    yield from (name for line in re.findall(r"(?m)^(?:pub )?use [^\n]*", text) for name in re.findall(WORD, line))


def declared_elsewhere(text: str) -> Iterator[str]:
    """Words of a source in another language: there are few, and none of them is a proof."""
    return iter(re.findall(WORD, text))


def clauses_in(text: str) -> Iterator[tuple]:
    """Each function of a source in Rattle, with the names of its clauses."""
    _, *pieces = re.split(rf"\bfn ({WORD})", text)
    for name, rest in zip(pieces[::2], pieces[1::2]):
        yield name, re.findall(rf"\b(?:ensures|requires) ({WORD})", rest)


def fields_in(text: str) -> Iterator[tuple]:
    """Each record of a file of definitions, with the names of its fields."""
    for found in re.finditer(rf"(?m)^(?:pub )?record (?:pub )?({WORD})[^\n]*\n((?:[ \t]+[^\n]*\n|\n)*)", text):
        yield found[1], re.findall(rf"(?m)^\s+(?:pub )?({WORD})[^\n]*?:", found[2])


class Index:
    """All that may be named."""

    def __init__(self) -> None:
        self.files = tracked()
        self.crates = {name.split("/")[1] for name in self.files if name.startswith("crates/")}
        self.bases = {os.path.basename(name) for name in self.files}.union(*(saved_in(read(name)) for name in self.files if name.endswith(".md")))
        self.declared: dict = defaultdict(set)
        self.parts: dict = defaultdict(set)
        self.spoken: dict = {}
        for name in self.files:
            self.declared[os.path.splitext(os.path.basename(name))[0]].add(name)
            if name.endswith(SOURCES) or name.startswith(".ci/") or "." not in os.path.basename(name):
                self._add(name, read(name))
        self.all_parts = set().union(*self.parts.values())

    def _add(self, name: str, text: str) -> None:
        self.spoken[name] = set(re.findall(WORD, text))
        reader = {".rt": declared_in_rattle, ".antt": declared_in_logic}.get(os.path.splitext(name)[1], declared_elsewhere)
        for word in reader(text):
            self.declared[word].add(name)
        for owner, parts in [*clauses_in(text), *fields_in(text)]:
            self.parts[owner].update(parts)

    def has_name(self, name: str) -> bool:
        return name in self.declared or name in FOREIGN or any(crate.endswith(f"_{name}") for crate in self.crates)

    def has_member(self, owner: str, member: str) -> bool:
        """Whether a source that speaks of a type declares this name."""
        return any(owner in self.spoken.get(name, ()) for name in self.declared.get(member, ()))


# ---- what is named


def without_code(text: str) -> str:
    """The text with blocks of code emptied, line for line."""
    return re.sub(r"(?ms)^```.*?^```$", lambda it: "\n" * it[0].count("\n"), text)


def headings(name: str) -> set:
    return set(re.findall(r"(?m)^#+ (.*)$", read(name)))


def listed(text: str) -> list:
    return re.findall(rf"`({WORD})`", text)


class Document:
    """What one document names, and which of it isn't there."""

    def __init__(self, name: str, index: Index) -> None:
        self.name, self.index, self.seen = name, index, Counter()
        self.text = without_code(read(name))
        self.folder = os.path.dirname(name)
        parts = name.split("/")
        self.crate = parts[1] if parts[0] == "crates" else None

    def wrong(self) -> Iterator[Wrong]:
        for kind, found in KINDS.items():
            for at, is_there, what in found(self):
                self.seen[kind] += 1
                if not is_there:
                    yield Wrong(self.name, self.text.count("\n", 0, at) + 1, what)

    def crates(self) -> Iterator[tuple]:
        for found in re.finditer(r"(?<![\w/.])(?:jf|test)_[a-z][a-z0-9_]*(?![\w]|\.\.)", self.text):
            yield found.start(), found[0] in self.index.crates, f"the crate {found[0]}"

    # ---- paths

    def paths(self) -> Iterator[tuple]:
        pattern = rf"(?<![\w/.])(?:{'|'.join(map(re.escape, FOLDERS))})/[\w./*+-]*\w|(?<=`)[^`\s]+(?=`)|(?<![\w/])(?:jf|test)_[a-z_]+/[\w/]+"
        for found in re.finditer(pattern, self.text):
            if self._is_path(found[0]):
                yield found.start(), self._is_there(found[0]), f"the file {found[0]}"

    def _is_path(self, path: str) -> bool:
        if not re.fullmatch(r"[\w./*+-]+", path) or ".." in path or "**" in path or "/out" in path or path.startswith(("/", "-", "*")):
            return False
        first, *rest = path.split("/")
        if any(map(self._stands_for_others, path.split("/"))):
            return False
        begins = first in FOLDERS + IN_CRATES or first in self.index.crates
        return bool(rest) and begins or path.endswith(PATHS) and not path.startswith(".")

    def _stands_for_others(self, part: str) -> bool:
        stem, ending = os.path.splitext(part)
        return ending in ("", ".rt", ".antt", ".edit") and part not in self.index.bases and re.fullmatch(STANDS_FOR_OTHERS, stem) is not None

    def _is_there(self, path: str) -> bool:
        if "/" not in path:
            return path in self.index.bases
        crates = [self.crate] if self.crate else self.index.crates
        places = ["", self.folder, "crates", *(f"crates/{name}" for name in crates if path.split("/")[0] in IN_CRATES)]
        return any(self._exists(os.path.join(place, path)) for place in places) or self._is_module(path)

    def _exists(self, path: str) -> bool:
        return bool(glob.glob(os.path.join(TOP, path))) if "*" in path else os.path.exists(os.path.join(TOP, path))

    def _is_module(self, path: str) -> bool:
        """jf_x/Y and jf_x/specs/Y, a file of that crate; or specs/Y."""
        crate, *rest = path.removeprefix("crates/").split("/")
        if crate in IN_CRATES:
            crate, rest = self.crate or "*", [crate, *rest]
        folder = os.path.join(*rest[:-1]) if rest[:-1] else "*"
        return bool(rest) and bool(glob.glob(os.path.join(TOP, "crates", crate, folder, f"{rest[-1]}.*")))

    # ---- sections

    def sections(self) -> Iterator[tuple]:
        for found in re.finditer(rf"([\w/.-]+\.md), ({QUOTED})", self.text):
            path = self._document(found[1])
            if path is None:
                continue
            there = headings(path)
            for title in re.findall(r'"([^"\n]+?)[,.]?"', found[2]):
                yield found.start(), title in there, f"the section {title!r} of {path}"

    def _document(self, path: str) -> Optional[str]:
        places = ["", self.folder, "docs"]
        return next((it for it in (os.path.normpath(os.path.join(place, path)) for place in places) if it in self.index.files), None)

    # ---- decisions

    def decisions(self) -> Iterator[tuple]:
        numbers = Counter(re.findall(r"(?m)^### (\d+\.\d+) ", read(DECISIONS)))
        is_here = self.name == DECISIONS
        for found in re.finditer(r"DECISIONS\.md, (\d+\.\d+)" + r"|\bsee (\d+\.\d+)" * is_here, self.text):
            number = found[1] or found[is_here + 1]
            yield found.start(), number in numbers, f"the decision {number}"
        layer = ""
        for found in re.finditer(r"(?m)^## (\d+) |^### (\d+\.\d+) ", self.text if is_here else ""):
            layer = found[1] or layer
            if found[2]:
                yield found.start(), numbers[found[2]] == 1 and found[2].startswith(f"{layer}."), f"a place of its own for the decision {found[2]}"

    # ---- names

    def names(self) -> Iterator[tuple]:
        for found in re.finditer(rf"`({WORD}(?:::{WORD})*)`", self.text):
            *owners, name = found[1].split("::")
            if owners:
                yield found.start(), self.index.has_member(owners[-1], name), f"the name {found[1]}"
            elif self._is_name(name):
                yield found.start(), self.index.has_name(name), f"the name {name}"

    def _is_name(self, name: str) -> bool:
        if name in self.index.crates or re.search(r"[A-Z]{2,}", name) and not re.search(r"[a-z]", name):
            return False
        return "_" in name.strip("_") and not re.search(r"[A-Z]{3,}", name) or bool(re.search(r"[A-Z][a-z0-9]+[A-Z]", name))

    # ---- clauses and fields

    def members(self) -> Iterator[tuple]:
        """(the kind of a part isn't looked at: a record's field and a function's clause of one name are both taken)"""
        pattern = rf"(?:`((?:{WORD}::)*{WORD})`(?:, [\w/]+)?, )?\b(?:clauses?|fields?) ({LISTED})(?: of `((?:{WORD}::)*{WORD})`)?"
        for found in re.finditer(pattern, self.text):
            owner = (found[1] or found[3] or "").rpartition("::")[2]
            there = self.index.parts.get(owner) or self.index.all_parts
            for name in listed(found[2]):
                if name[0].islower():
                    yield found.start(), name in there, f"the clause or field {name}" + (f" of {owner}" if owner in self.index.parts else "")


KINDS = {
    "crates": Document.crates, "paths": Document.paths, "sections": Document.sections, "decisions": Document.decisions, "names": Document.names,
    "clauses and fields": Document.members,
}


def documents(index: Index) -> list:
    """README.md, docs/*.md and the README.md of each crate."""
    return [name for name in index.files if re.fullmatch(r"README\.md|docs/[^/]*\.md|crates/[^/]*/README\.md", name)]


def wrong_names() -> tuple:
    """What is named that isn't there, and how many of each kind were looked at."""
    index = Index()
    found = [Document(name, index) for name in documents(index)]
    wrong = [it for document in found for it in document.wrong()]
    return wrong, sum((document.seen for document in found), Counter())
