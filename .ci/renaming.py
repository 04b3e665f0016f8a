"""How a name is followed: which places of the repository mean one function, definition, module or clause.

What is looked at for each row of a table, and what isn't, stands at the top of .ci/rename.
"""
import os
import re
from collections import defaultdict
from functools import lru_cache
from typing import Iterator, NamedTuple, Optional

from rename_calls import START, Calls, Change, Problem, Row, inside, tokens, words_of
from sources import (
    TOP, Fn, binds, crate_of, declared, functions, ghost_parts, imports, line_of, logic_code, module_of, paragraphs, rattle_code, read, tracked,
)

CLAUSE = re.compile(r"\b(?:ensures|requires)\s*\*?\s*\Z")
KINDS = ("function", "definition", "clause", "module", "spot")


def logic_module(name: str) -> str:
    return "Rattle." + name.removeprefix("crates/").removesuffix(".antt").replace("/", ".")


class Repository:
    """All sources, and what they declare."""

    def __init__(self) -> None:
        self.files = tracked()
        self.texts = {name: read(name) for name in self.files if name.endswith((".rt", ".antt", ".edit", ".md", ".txt")) or name.startswith(".ci/")}
        self.logic = {logic_module(name): name for name in self.files if name.endswith(".antt")}
        self.rattle = [name for name in self.files if name.endswith(".rt") and "/src/" in name]
        self.functions = [it for name in self.rattle for it in functions(name, self.texts[name])]
        self.named = defaultdict(list)
        for it in self.functions:
            self.named[it.name].append(it)
        self.stands_on = {}
        for line in self.texts["crates.txt"].splitlines():
            crate, _, below = line.partition("#")[0].partition(":")
            if crate.split():
                self.stands_on[crate.split()[0]] = set(below.split())
        self.handed_on = {}
        for module, name in self.logic.items():
            if name.endswith("/specs/Lib.antt"):
                for other in re.findall(r"(?m)^pub use (\S+)$", self.texts[name]):
                    self.handed_on[f"{module.removesuffix('.Lib')}.{other.rpartition('.')[2]}"] = other

    def canonical(self, module: str) -> str:
        """The module that a crate hands on under a name of its own."""
        while module not in self.logic and module in self.handed_on:
            module = self.handed_on[module]
        return module


class Renaming(Calls):
    """What rows of a table change, file by file; and what they can't decide."""

    def __init__(self, repository: Repository, rows: list) -> None:
        self.repository, self.rows = repository, rows
        self.problems, self.notes = [], []
        self.spots = [row for row in rows if row.kind == "spot"]
        self.definitions = {}
        self.targets = defaultdict(dict)
        self.folders = {}
        self.paths = {}
        self.steps = defaultdict(dict)
        self.local_steps = defaultdict(set)
        self.clauses = []
        self.names = frozenset(row.name for row in rows)
        self.by_crate = {}
        for row in rows:
            add = {"function": self.add_function, "definition": self.add_definition, "module": self.add_module, "clause": self.add_clause}.get(row.kind)
            if add:
                add(row)
        self.hand_definitions_on()
        for name in self.repository.rattle:
            self.find_steps(name)

    def problem(self, name: str, at: int, what: str) -> None:
        text = self.repository.texts.get(name, "")
        self.problems.append(Problem(f"{name}:{line_of(text, at)}" if text else name, what))

    def spot(self, name: str, text: str, at: int, word: str) -> Optional[str]:
        """What a table says of a word at a place: which new name it gets, or the old one if it stays."""
        line = text[text.rfind("\n", 0, at) + 1 : (text.find("\n", at) + 1 or len(text) + 1) - 1]
        near = line[: at - text.rfind("\n", 0, at) - 1]
        for row in self.spots:
            if row.crate == name and row.old == word and (not row.where or any(found.start() <= len(near) < found.end() for found in re.finditer(re.escape(row.where), line))):
                return row.new
        return None

    # ---- what rows mean

    def add_definition(self, row: Row) -> None:
        places = [
            module for module, name in self.repository.logic.items()
            if crate_of(name) == row.crate and name.startswith(f"crates/{row.crate}/{row.where}") and row.old in declared(self.repository.texts[name])
            and (row.where or not self.is_answer(name))
        ]
        if len(places) != 1:
            self.problems.append(Problem(row.crate, f"{row.old}: declared in {len(places)} files: {', '.join(places)}"))
        for module in places:
            self.definitions[module, row.old] = row

    def is_answer(self, name: str) -> bool:
        return re.search(r"/(Answers|Invariants|Proof)\.antt$", name) is not None

    def hand_definitions_on(self) -> None:
        """A file that imports a name for others has it too."""
        grown = True
        while grown:
            grown = False
            for module, name in self.repository.logic.items():
                for it in imports(self.repository.texts[name])[0]:
                    row = self.definitions.get((self.repository.canonical(it.module), it.name))
                    if row and it.is_public and not it.alias and (module, it.name) not in self.definitions:
                        self.definitions[module, it.name] = row
                        grown = True

    def add_function(self, row: Row) -> None:
        *owners, name = row.old.split("::")
        found = [
            it for it in self.repository.named[name]
            if it.crate == row.crate and it.file.startswith(f"crates/{row.crate}/{row.where}") and (not owners or owners[-1] in (it.owner, it.trait, it.module.split("::")[-1]))
        ]
        if len(owners) == 1 and len(found) > 1:
            found = [it for it in found if owners[0] == (it.owner or it.trait)] or found
        if not found or len({(it.owner, it.trait, it.module) for it in found}) != 1:
            self.problems.append(Problem(row.crate, f"{row.old}: {len(found)} functions: {', '.join(it.file for it in found)}"))
        of_trait = {it.trait for it in found if it.trait and not it.owner}
        for it in self.repository.named[name]:
            if it in found or it.trait in of_trait and self.sees(it.crate, row.crate):
                self.targets[name][it] = row
                self.move_folders(it, row)

    def sees(self, crate: str, below: str) -> bool:
        return crate == below or below in self.repository.stands_on.get(crate, ())

    def proof_folders(self, it: Fn) -> Iterator[str]:
        """The folders of crates/C/proofs that belong to a function, and those of the closures in it."""
        top = f"crates/{it.crate}/proofs/"
        module = it.module.replace("::", "/")
        owner = re.escape(it.owner or it.trait or "")
        names = "|".join(map(re.escape, it.folders()))
        place = rf"(?:[\w/]+/)?{owner}{re.escape(it.trait or '')}" if it.owner or it.trait else re.escape(module)
        if it.owner and not it.trait:
            place = rf"(?:[\w/]+/)?{owner}"
        own = re.compile(rf"{re.escape(top)}(?:{place}/)?(?:{names})$" if not module else rf"{re.escape(top)}{place}/(?:{names})$")
        inner = re.compile(rf"{re.escape(top)}(?:[\w/]+/)?fn/{re.escape(it.name)}(?:/|$)")
        for folder in self.all_folders()[it.crate]:
            if own.match(folder) or inner.match(folder) and (not module or f"/{module}/" in folder):
                yield folder

    @lru_cache(maxsize=1)
    def all_folders(self) -> dict:
        found = defaultdict(list)
        for folder in sorted({os.path.dirname(name) for name in self.repository.files if re.match(r"crates/\w+/proofs/.*/", name)}):
            found[crate_of(folder)].append(folder)
        return found

    def move_folders(self, it: Fn, row: Row) -> None:
        for folder in self.proof_folders(it):
            parts = folder.split("/")
            for i, part in enumerate(parts[3:], 3):
                if part in (it.name, f"+{it.name}") and (i == len(parts) - 1 or parts[i - 1] == "fn"):
                    if self.is_local(rattle_code(self.repository.texts[it.file]), [it], it.name, it.at):
                        self.local_steps[folder].add(it.name)
                    old = "/".join(parts[: i + 1])
                    self.folders[old] = "/".join([*parts[:i], part.replace(it.name, row.new)])
        self.paths.update({logic_module(old): logic_module(new) for old, new in self.folders.items()})

    def add_module(self, row: Row) -> None:
        top = f"crates/{row.crate}"
        if "/" in row.old:
            part, _, old = row.old.partition("/")
            self.folders[f"{top}/{part}/{old}.antt"] = f"{top}/{part}/{row.new}.antt"
            self.paths[f"Rattle.{row.crate}.{part}.{old}"] = f"Rattle.{row.crate}.{part}.{row.new}"
            for module in [it for it, other in self.repository.handed_on.items() if other == f"Rattle.{row.crate}.{part}.{old}"]:
                self.paths[module] = f"{module.rpartition('.')[0]}.{row.new}"
            return
        self.folders[f"{top}/src/{row.old}.rt"] = f"{top}/src/{row.new}.rt"
        self.folders[f"{top}/proofs/{row.old}"] = f"{top}/proofs/{row.new}"
        for part in ("proofs", "specs.declared", "specs.contracts"):
            self.paths[f"Rattle.{row.crate}.{part}.{row.old}"] = f"Rattle.{row.crate}.{part}.{row.new}"

    def add_clause(self, row: Row) -> None:
        function, _, clause = row.old.rpartition(".")
        *owners, name = function.split("::")
        found = [
            it for it in (self.repository.functions if name == "*" else self.repository.named[name])
            if it.crate == row.crate and it.file.startswith(f"crates/{row.crate}/{row.where}") and (not owners or owners[-1] in (it.owner, it.trait, it.module.split("::")[-1]))
        ]
        found = [it for it in found if self.clause_places(it, clause)]
        if not found or name != "*" and len(found) != 1:
            self.problems.append(Problem(row.crate, f"{row.old}: {len(found)} functions with that clause"))
        self.clauses += [(it, clause, row) for it in found]

    def clause_places(self, it: Fn, clause: str) -> list:
        code = rattle_code(self.repository.texts[it.file])
        return [found.span(2) for found in re.compile(r"\b(ensures|requires)\s*\*?\s*(\w+)(?=\s*\{)").finditer(code, it.at, it.body) if found[2] == clause]

    # ---- what a file becomes

    def changes(self, name: str, text: str, quiet: bool = False) -> list:
        """The changes of a source."""
        found = []
        if name.endswith(".antt"):
            found += self.in_logic(name, text, logic_module(name), [(0, len(text))], quiet)
            found += self.in_proofs(name, text)
        elif name.endswith(".rt"):
            # (a clause may have the name of a function)
            found += [it for it in self.calls(name, text, quiet) if not CLAUSE.search(text, max(0, it.at - 20), it.at)]
            found += self.in_logic(name, text, "", ghost_parts(text), quiet)
            found += self.in_attributes(name, text)
            found += self.in_clauses(name, text)
        found += self.in_paths(name, text)
        kept = {}
        for it in sorted(found):
            if (it.at, it.end) in kept and kept[it.at, it.end].new != it.new:
                self.problem(name, it.at, f"two new names: {kept[it.at, it.end].new} and {it.new}")
            kept[it.at, it.end] = it
        return sorted(kept.values())

    def in_logic(self, name: str, text: str, module: str, parts: list, quiet: bool) -> Iterator[Change]:
        """Where a file means renamed definitions."""
        if not words_of(text) & self.names:
            return
        names, modules, places = imports(text)
        scope = {word: row for (its, word), row in self.definitions.items() if its == module and module}
        for it in names:
            row = self.definitions.get((self.repository.canonical(it.module), it.name))
            if row:
                yield Change(it.at, it.at + len(it.name), row.new, row)
                if not it.alias:
                    scope[it.name] = row
        qualified = {alias: self.repository.canonical(its) for alias, its in modules.items()}
        qualified = {(alias, word): row for alias, its in qualified.items() for (other, word), row in self.definitions.items() if other == its}
        by_path = {f"{its}.{word}": row for (its, word), row in self.definitions.items()}
        if not (scope or qualified or "Rattle." in text and by_path):
            return
        code = logic_code(text) if module else rattle_code(text)
        for word in scope.keys() & declared(text).keys() if module else ():
            if (module, word) not in self.definitions and not quiet:
                self.problem(name, declared(text)[word], f"{word} is imported, and declared here too")
        self.hold_apart(name, text, code, names, scope, places, parts, quiet)
        signatures = [] if module else functions(name, text)
        for start, end in parts:
            for first, last in paragraphs(code[start:end]):
                piece, begin = code[start + first : start + last], start + first
                yield from self.in_piece(name, piece, begin, scope, qualified, by_path, places, signatures, code, quiet)

    def in_piece(self, name, piece, begin, scope, qualified, by_path, places, signatures, code, quiet) -> Iterator[Change]:
        bound = {}
        words = words_of(piece) & self.names
        for found in tokens(piece, words) if words else ():
            at, word = begin + found.start(), found[0]
            if inside(at, places):
                continue
            if found.start() and piece[found.start() - 1] == ".":
                path = re.search(r"([\w.+'-]+)\.$", piece[max(0, found.start() - 200) : found.start()])
                row = qualified.get((path[1], word)) or by_path.get(f"{path[1]}.{word}") if path else None
                if row:
                    yield Change(at, at + len(word), row.new, row)
                continue
            row = scope.get(word)
            if not row:
                continue
            if re.match(r"\s*= ", piece[found.end() : found.end() + 40]) and re.search(r"[{;]\s*$", piece[max(0, found.start() - 80) : found.start()]):
                continue
            if word not in bound:
                bound[word] = binds(piece, word) or self.is_parameter(code, signatures, word, at)
                if bound[word] and not quiet:
                    line = f"{name}:{line_of(code, at)}"
                    self.notes.append(Problem(line, f"{word} is bound here, and so not renamed"))
            if not bound[word]:
                yield Change(at, at + len(word), row.new, row)

    def is_parameter(self, code: str, signatures: list, word: str, at: int) -> bool:
        for it in signatures:
            if it.at <= at < it.end:
                head = code[it.at : it.body].split("ensures")[0].split("requires")[0]
                return re.search(rf"[(,]\s*(?:mut )?{re.escape(word)}\s*:", head) is not None
        return False

    def hold_apart(self, name: str, text: str, code: str, names: list, scope: dict, places: list, parts: list, quiet: bool) -> None:
        """Whether a new name is already something else in a file that gets it."""
        if quiet:
            return
        taken = {it.alias or it.name: f"imported from {it.module}" for it in names if (it.alias or it.name) not in scope}
        if name.endswith(".antt"):
            taken.update({word: "declared here" for word in declared(text) if word not in scope})
        for old, row in scope.items():
            if row.new in taken:
                self.problem(name, 0, f"{old} becomes {row.new}, which is {taken[row.new]}")
            for start, end in parts:
                for found in re.finditer(rf"(?<![\w.'-]){re.escape(row.new)}(?![\w'-])", code[start:end]):
                    if not inside(start + found.start(), places) and row.new not in taken:
                        self.problem(name, start + found.start(), f"{old} becomes {row.new}, which is a local name here")

    def in_proofs(self, name: str, text: str) -> Iterator[Change]:
        """Steps and goals of renamed functions, in the proofs of those that call them, and in their own."""
        folder = os.path.dirname(name)
        steps = dict(self.steps.get(folder, {}))
        for old, new in self.folders.items():
            if (folder == old or folder.startswith(old + "/")) and os.path.basename(old).lstrip("+") != os.path.basename(new).lstrip("+") and not old.endswith(".antt"):
                row = next((row for word, targets in self.targets.items() for row in targets.values() if word == os.path.basename(old).lstrip("+") and row.new == os.path.basename(new).lstrip("+")), None)
                if row:
                    steps.setdefault(row.name, row)
        code = logic_code(text)
        places = imports(text)[2]
        for found in re.finditer(rf"{START}[^\s(){{}}\[\];,.@\"λ]*?(?:{'|'.join(steps)})[^\s(){{}}\[\];,.@\"λ]*", code) if steps else ():
            at, token = found.start(), found[0]
            if inside(at, places):
                continue
            lead = re.search(r"([\w'-]+)\.$", code[max(0, at - 60) : at])
            is_step = bool(lead) and lead[1] in ("c", "goal")
            parts = re.split(r"([-+])", token)
            if not (is_step or len(parts) > 1):
                continue
            place = at
            for i, part in enumerate(parts):
                word = re.fullmatch(r"([A-Za-z_]\w*?)(\d*)", part)
                row = steps.get(part) or (steps.get(word[1]) if word else None)
                if row and row.name in self.local_steps[folder] and (i or len(parts) == 1):
                    if len(parts) == 1 or parts[i - 2] != row.name:
                        self.notes.append(Problem(f"{name}:{line_of(text, at)}", f"{row.name} in {token} is taken for a local name"))
                elif row and not (i > 1 and parts[i - 2] in ("clause", "field")):
                    yield Change(place, place + len(row.name), row.new, row)
                place += len(part)
        yield from self.clauses_in_proofs(name, text)

    def in_attributes(self, name: str, text: str) -> Iterator[Change]:
        """Paths to definitions in #[tactic(..)], and cycles that are named after a function."""
        crate = crate_of(name)
        for found in re.finditer(r"(?<![\w:])((?:\w+::)*(?:specs|proofs)(?:::\w+)*)::([\w'-]+)", rattle_code(text)):
            first, _, rest = found[1].partition("::")
            module = "Rattle." + (crate if first == "crate" else first) + "." + rest.replace("::", ".")
            row = self.definitions.get((self.repository.canonical(module), found[2]))
            if row:
                yield Change(found.start(2), found.end(2), row.new, row)

    def in_paths(self, name: str, text: str) -> Iterator[Change]:
        """Paths in the logic, and in code, that go through a moved folder or module."""
        for row in self.rows:
            if row.kind != "module":
                continue
            crate = crate_of(name)
            if "/" not in row.old and name.endswith((".rt", ".edit")):
                code = rattle_code(text) if name.endswith(".rt") else text
                if crate == row.crate:
                    for found in re.finditer(rf"(?:\bcrate::|(?<![\w:.])){row.old}(?=::)|\bmod {row.old}(?=;)", code):
                        if name.endswith("/lib.rt") or found[0] != row.old:
                            yield Change(found.end() - len(row.old), found.end(), row.new, row)
                for found in re.finditer(rf"\b{row.crate}::{row.old}(?=::)", code):
                    yield Change(found.end() - len(row.old), found.end(), row.new, row)
            if "/" in row.old:
                part, _, old = row.old.partition("/")
                for found in re.finditer(rf"\b{'crate' if crate == row.crate else row.crate}::{part}::{old}(?=::)", text):
                    yield Change(found.end() - len(old), found.end(), row.new, row)
                if name == f"crates/{row.crate}/{part}/Lib.antt":
                    for found in re.finditer(rf"(?m)^pub mod {old}$", text):
                        yield Change(found.end() - len(old), found.end(), row.new, row)
        for found in re.finditer(r"\bRattle\.(\w+)[\w.+]+", text) if self.paths else ():
            for old, new in self.paths_of(found[1]):
                if (found[0] + ".").startswith(old + "."):
                    i = next(i for i, (a, b) in enumerate(zip(old.split("."), new.split("."))) if a != b)
                    at = found.start() + len(".".join(old.split(".")[:i])) + 1
                    yield Change(at, at + len(old.split(".")[i]), new.split(".")[i], self.row_of(old, new))

    def paths_of(self, crate: str) -> list:
        if crate not in self.by_crate:
            self.by_crate[crate] = [it for it in self.paths.items() if it[0].split(".")[1] == crate]
        return self.by_crate[crate]

    def row_of(self, old: str, new: str) -> Row:
        last = old.rpartition(".")[2].lstrip("+")
        fresh = new.rpartition(".")[2].lstrip("+")
        return next(row for row in self.rows if row.new == fresh and row.name.rpartition("/")[2] == last)

    # ---- clauses

    def in_clauses(self, name: str, text: str) -> Iterator[Change]:
        """Where the clauses of functions of a file are declared."""
        for it, clause, row in self.clauses:
            if it.file == name:
                for other in functions(name, text):
                    if (other.owner, other.trait, other.name) == (it.owner, it.trait, it.name):
                        code = rattle_code(text)
                        for found in re.compile(r"\b(ensures|requires)\s*\*?\s*(\w+)(?=\s*\{)").finditer(code, other.at, other.body):
                            if found[2] == clause:
                                yield Change(*found.span(2), row.new, row)

    def clauses_in_proofs(self, name: str, text: str) -> Iterator[Change]:
        """Where proofs cite a renamed clause: in the folder of its function, and in those of its callers."""
        if not self.clauses:
            return
        folder, code = os.path.dirname(name), logic_code(text)
        for it, clause, row in self.clauses:
            if clause not in code or not self.sees(crate_of(name), it.crate):
                continue
            if folder in self.own_folders(it):
                own = rf"\bc\.requires\.({clause})(?![\w'-])|(?:returns|iteration|exit)[\w-]*-clause-({clause})(?![\w'])"
                for found in re.finditer(own, code):
                    i = 1 if found[1] else 2
                    yield Change(*found.span(i), row.new, row)
            step = rf"(?<![\w'])(?:[\w'-]+-)?{it.name}(?:-[\w'-]+?)?"
            for found in re.finditer(rf"{step}(?:\.ensures\.({clause})|-requires-clause-({clause})|-clause-({clause}))(?![\w'])", code):
                i = next(i for i in (1, 2, 3) if found[i])
                yield Change(*found.span(i), row.new, row)

    @lru_cache(maxsize=4096)
    def own_folders(self, it: Fn) -> tuple:
        others = [other for other in self.repository.named[it.name] if it.trait and not it.owner and other.trait == it.trait and self.sees(other.crate, it.crate)]
        return tuple(folder for fn in [it, *others] for folder in self.proof_folders(fn))
