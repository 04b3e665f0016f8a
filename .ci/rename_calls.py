"""Where sources in Rattle call renamed functions, and the small readers that renaming needs."""
import re
from functools import lru_cache
from typing import Iterator, NamedTuple, Optional

from sources import crate_of, functions, ghost_parts, line_of, module_of, rattle_code


class Row(NamedTuple):
    """A line of a table."""

    kind: str
    crate: str
    old: str
    new: str
    where: str

    @property
    def name(self) -> str:
        return re.split(r"::|\.", self.old)[-1]


class Change(NamedTuple):
    """A piece of a file that becomes another, and the row that says so."""

    at: int
    end: int
    new: str
    row: Row


class Problem(NamedTuple):
    where: str
    what: str


@lru_cache(maxsize=8192)
def words_of(code: str) -> frozenset:
    return frozenset(re.findall(r"\w+", code))


START = r"(?<![^\s(){}\[\];,.@\"λ])"


def tokens(piece: str, words: frozenset) -> Iterator:
    """Where a piece of logic has one of these words as a whole name."""
    return re.finditer(rf"{START}(?:{'|'.join(sorted(words))})(?![^\s(){{}}\[\];,.@\"λ])", piece)


def inside(at: int, places: list) -> bool:
    return any(start <= at < end for start, end in places)


def flat(tree: str, at: int, before: str) -> Iterator[tuple]:
    """The paths of a `use` line, with their names here, and the places of their last words."""
    depth, start = 0, 0
    for i, char in enumerate(tree + ","):
        depth += (char == "{") - (char == "}")
        if char == "," and depth == 0:
            item = tree[start:i]
            here = at + start + len(item) - len(item.lstrip())
            item = item.strip()
            if item.endswith("}"):
                head, _, rest = item.partition("{")
                yield from flat(rest[:-1], here + len(head) + 1, before + head.strip())
            elif item:
                path, _, alias = item.partition(" as ")
                last = path.strip().rpartition("::")[2]
                yield before + path.strip(), alias.strip() or last, here + len(path.strip()) - len(last)
            start = i + 1


class Calls:
    """The part of a renaming that follows functions through code."""

    def find_steps(self, name: str) -> None:
        """Which functions of a file call renamed ones: their proofs speak of these steps."""
        text = self.repository.texts[name]
        for change in self.calls(name, text, quiet=True):
            for it in functions(name, text):
                if it.body <= change.at < it.end:
                    for folder in self.proof_folders(it):
                        self.steps[folder][change.row.name] = change.row
                        if self.is_local(rattle_code(text), [it], change.row.name, change.at):
                            self.local_steps[folder].add(change.row.name)

    def used(self, name: str, code: str) -> Iterator[tuple]:
        """What `use` lines of a source in Rattle bring in: the path, the name here, and the place of the path's last word."""
        for found in re.finditer(r"(?m)^[ \t]*(?:pub(?:\(crate\))? )?use ([^;]+);", code):
            yield from flat(found[1], found.start(1), "")

    def exported(self, crate: str) -> dict:
        """The names at the top of a crate, and the paths that they mean: in it, or in another crate."""
        lib = f"crates/{crate}/src/lib.rt"
        text = self.repository.texts.get(lib)
        return {} if text is None else {here: path for path, here, _ in self.used(lib, rattle_code(text))}

    def meant(self, crate: str, path: str) -> str:
        """A path in its long form, C::module::name."""
        first, _, rest = path.partition("::")
        full = f"{crate}::{rest}" if first == "crate" else path
        top, _, rest = full.partition("::")
        if "::" not in rest and rest:
            other = self.exported_of(top).get(rest)
            if other and other.partition("::")[0] in self.repository.stands_on:
                return self.meant(top, other)
            if other:
                return f"{top}::{other.removeprefix('crate::')}"
        return full

    @lru_cache(maxsize=512)
    def exported_of(self, crate: str) -> dict:
        return self.exported(crate)

    def calls(self, name: str, text: str, quiet: bool = False) -> Iterator[Change]:
        """Where a source in Rattle declares, imports or calls renamed functions."""
        code, crate, module = rattle_code(text), crate_of(name), module_of(name)
        here = functions(name, text)
        uses = ghost = None
        for word in words_of(code) & self.targets.keys():
            targets = self.targets[word]
            if uses is None:
                uses = [it.span() for it in re.finditer(r"(?m)^[ \t]*(?:pub(?:\(crate\))? )?(?:ghost )?use [^;]+;", code)]
                ghost = ghost_parts(text)
            free = {f"{it.crate}::{it.module}::{it.name}" if it.module else f"{it.crate}::{it.name}": row for it, row in targets.items() if not it.owner and not it.trait}
            in_scope = {row for path, row in free.items() if path == (f"{crate}::{module}::{word}" if module else f"{crate}::{word}")}
            use_places = {}
            for path, alias, at in self.used(name, code):
                full = self.meant(crate, path)
                if not full.startswith(tuple(f"{it}::" for it in self.repository.stands_on)):
                    full = f"{crate}::{full}"
                if full in free:
                    use_places[at] = free[full]
                    if alias == word:
                        in_scope.add(free[full])
            for found in re.finditer(rf"(?<!\w){word}(?!\w)", code):
                at, end = found.span()
                if at in use_places:
                    yield Change(at, end, use_places[at].new, use_places[at])
                    continue
                if inside(at, uses) or inside(at, ghost):
                    continue
                row = self.meaning(name, code, here, word, targets, free, in_scope, at, quiet)
                if row:
                    yield Change(at, end, row.new, row)

    def meaning(self, name: str, code: str, here: list, word: str, targets: dict, free: dict, in_scope: set, at: int, quiet: bool) -> Optional[Row]:
        """The row of the function that a word of the code means, or none."""
        before, after = code[max(0, at - 200) : at].rstrip(), code[at + len(word) : at + len(word) + 200].lstrip()
        crate, module = crate_of(name), module_of(name)
        for it in here:
            if it.at == at:
                return next((row for target, row in targets.items() if (target.file, target.owner, target.trait, target.name) == (it.file, it.owner, it.trait, it.name)), None)
        if before.endswith(".") and not before.endswith(".."):
            return self.method(name, code, here, word, targets, at, quiet) if after.startswith(("(", "::")) and self.takes_as_many(targets, after) else None
        if before.endswith("::"):
            path = re.search(r"((?:\w+(?:::)?)+)::$", before)
            owner = path[1] if path else ""
            if owner == "Self":
                owner = next((it.owner or it.trait for it in here if it.at <= at < it.end), "")
            last = owner.split("::")[-1]
            for target, row in targets.items():
                if last and last in (target.owner, target.trait) and self.sees(crate, target.crate):
                    return row
            full = self.meant(crate, f"{owner}::{word}")
            candidates = [full, f"{crate}::{full}", f"{crate}::{module}::{full}"]
            return next((free[it] for it in candidates if it in free), None)
        if not in_scope or after.startswith(":") and not after.startswith("::") or re.search(r"(?<!&)\b(let|mut|ref|ghost|mod)$|\|$", before):
            return None
        if after.startswith("=") and not after.startswith("=="):
            return None
        if not after.startswith(("(", "::<")) and self.is_local(code, here, word, at):
            return None
        if after.startswith("(") and self.is_local(code, here, word, at) and not quiet:
            self.notes.append(Problem(f"{name}:{line_of(code, at)}", f"{word} is a local name of the function that calls it"))
        return next(iter(in_scope))

    def takes_as_many(self, targets: dict, after: str) -> bool:
        """Whether a call has arguments exactly if one of the methods takes some: others may be those of the library."""
        heads = [rattle_code(self.repository.texts[it.file])[it.at + len(it.name) :] for it in targets if it.owner or it.trait]
        return any(bool(re.match(r"(?:<[^()]*>)?\(\s*&?(?:mut )?self\s*\)", head)) == after.startswith("()") for head in heads)

    def is_local(self, code: str, here: list, word: str, at: int) -> bool:
        for it in here:
            if it.at <= at < it.end and re.search(rf"\b(?:let|mut|ref)\s+{word}\b|[(,|]\s*(?:mut )?{word}\s*:|\|{word}\||[(,]\s*{word}\s*[,)][\w\s,)]*(?:=>|=[^=])", code[it.at : it.end]):
                return True
        return False

    def method(self, name: str, code: str, here: list, word: str, targets: dict, at: int, quiet: bool) -> Optional[Row]:
        """The row of the method that a call `x.word(..)` means."""
        line = f"{name}:{line_of(code, at)}"
        answer = self.spot(name, self.repository.texts[name], at, word) if self.spots else None
        if answer:
            return next((row for row in targets.values() if row.new == answer), None)
        crate = crate_of(name)
        owned = {it: row for it, row in targets.items() if (it.owner or it.trait) and self.sees(crate, it.crate)}
        others = [it for it in self.repository.named[word] if it not in targets and (it.owner or it.trait) and self.sees(crate, it.crate)]
        if not owned:
            return None
        before = code[max(0, at - 200) : at].rstrip().removesuffix(".").rstrip()
        if before.endswith("self") and not before.endswith(".self"):
            inside_of = next((it.owner or it.trait for it in here if it.at <= at < it.end), None)
            for it, row in owned.items():
                if inside_of in (it.owner, it.trait):
                    return row
            return None
        if not others and len({row.new for row in owned.values()}) == 1:
            return next(iter(owned.values()))
        if not quiet:
            self.problems.append(Problem(line, f".{word}() is one of {', '.join(sorted({f'{it.crate} {it.owner or it.trait}' for it in [*owned, *others]}))}: answer by a spot"))
        return None
