"""What renaming has to know of sources: where they have comments, clauses, imports, functions and bound names.

A source keeps its length wherever something is blanked, so that places in it stay what they are.
"""
import os
import re
import subprocess
from functools import lru_cache
from typing import Iterator, NamedTuple, Optional

TOP = os.path.dirname(os.path.dirname(os.path.abspath(__file__)))
TOKEN = re.compile(r"[^\s(){}\[\];,.@\"λ]+")
IMPORT = re.compile(r"(?m)^[ \t]*((?:pub |ghost )*)use ([^\s{;]+?)(?:\.\{([^}]*)\})?(?: as (\S+?))?;?[ \t]*$")
CLAUSE = re.compile(r"\b(ensures|requires|invariant|shows|decreases)\b\s*\*?\s*(\w+)?\s*(?=\{)")


def tracked() -> list:
    """The files of the repository, also those that aren't committed yet."""
    ran = subprocess.run(["git", "ls-files", "-co", "--exclude-standard"], cwd=TOP, stdout=subprocess.PIPE, check=True, encoding="utf-8")
    return [name for name in ran.stdout.splitlines() if os.path.isfile(os.path.join(TOP, name))]


def read(name: str) -> str:
    with open(os.path.join(TOP, name), encoding="utf-8") as it:
        return it.read()


def line_of(text: str, at: int) -> int:
    return text.count("\n", 0, at) + 1


def blanked(found) -> str:
    return re.sub(r"[^\n]", " ", found[0])


@lru_cache(maxsize=8192)
def logic_code(text: str) -> str:
    """A file of definitions or proofs without comments and texts."""
    return re.sub(r'(?m)(?:(?<=\s)|^)--(?= |-|$).*|"(?:[^"\\\n]|\\.)*"', blanked, text)


@lru_cache(maxsize=8192)
def rattle_code(text: str) -> str:
    """A source in Rattle without comments, texts and characters."""
    return re.sub(r"//.*|b?\"(?:[^\"\\]|\\[\s\S])*\"|b?'(?:[^'\\\n]|\\[^\n]{1,8}?)'", blanked, text)


def closing(code: str, at: int) -> int:
    """The place after the brace that closes the one at a place."""
    depth = 0
    for found in re.compile(r"[{}]").finditer(code, at):
        depth += 1 if found[0] == "{" else -1
        if depth == 0:
            return found.end()
    return len(code)


@lru_cache(maxsize=8192)
def ghost_parts(text: str) -> list:
    """The places of a source in Rattle that are written in the logic: what clauses and ghost members say in braces."""
    code, parts = rattle_code(text), []
    for found in CLAUSE.finditer(code):
        parts.append((found.end(), closing(code, found.end())))
    for found in re.finditer(r"\bghost (?!use\b)\w+\s*[:=]?\s*(?=\{)", code):
        at = found.end()
        while True:
            end = closing(code, at)
            parts.append((at, end))
            more = re.compile(r"\s*=\s*(?=\{)").match(code, end)
            if not more:
                break
            at = more.end()
    return sorted(set(parts))


class Import(NamedTuple):
    """One name that a file takes from a module: what it is called there and here, and where the first stands."""

    module: str
    name: str
    alias: Optional[str]
    at: int
    is_public: bool


@lru_cache(maxsize=8192)
def imports(text: str) -> tuple:
    """The names and the modules, under the names that they get here, that a file imports from the logic, and the places of these lines."""
    names, modules, places = [], {}, []
    for found in IMPORT.finditer(text):
        places.append(found.span())
        if found[3] is None:
            modules[found[4] or found[2].rpartition(".")[2]] = found[2]
            continue
        for item in re.finditer(r"([^\s,]+)(?:\s+as\s+([^\s,]+))?", found[3]):
            inner, _, name = item[1].rpartition(".")
            module = f"{found[2]}.{inner}" if inner else found[2]
            names.append(Import(module, name, item[2], found.start(3) + item.end(1) - len(name), "pub" in found[1]))
    return names, modules, places


def paragraphs(text: str) -> Iterator[tuple]:
    """The places of the parts of a text that empty lines part."""
    at = 0
    for found in re.finditer(r"\n[ \t]*\n", text):
        yield at, found.start() + 1
        at = found.end()
    yield at, len(text)


HEAD = r"(?m)^[ ]{0,2}(?:(?:pub|abbrev|unfoldable|record|data|codata|private) +)*"


def binds(code: str, name: str) -> bool:
    """Whether a piece of logic binds a name as a variable, or declares a field of that name."""
    it = rf"(?<![^\s(){{}},;]){re.escape(name)}(?![^\s(){{}},;:.])"
    # (what stands after a colon is the type of a variable)
    heads = (re.sub(r":[^():]*(?:\([^()]*\)[^():]*)*", " ", it) for it in re.findall(r"λ([^.λ]*)\.", code))
    if any(re.search(it, head) for head in heads) or re.search(rf"\blet \(?[^=:\n]*{it}[^=:\n]*[:=]", code):
        return True
    if re.search(rf"[({{][^:(){{}}=→]*{it}[^:(){{}}=→]* :", code) or re.search(rf"(?m)^\s+(?:pub )?{it} :", code):
        return True
    heads = re.findall(HEAD + r"(\S+) :", code)
    return any(re.search(it, left) for left in re.findall(r"(?m)^[ ]{0,2}(?:%s) (?!: )([^=\n]*) =(?: |$)" % "|".join(map(re.escape, heads)), code)) if heads else False


@lru_cache(maxsize=8192)
def declared(text: str) -> dict:
    """The names that a file of definitions or proofs declares, with their places: of data the variants too."""
    code, found = logic_code(text), {}
    in_section = [it.start() for it in re.finditer(r"(?m)^module _", code)]
    for it in re.finditer(HEAD + r"([^\s:(){}]+)(?= [^=\n]*:|\s*$)", code):
        indent = len(it[0]) - len(it[0].lstrip(" "))
        if it[1] in ("module", "use", "where", "unfolding", "mod") or (indent and (not in_section or it.start() < in_section[0])):
            continue
        if re.match(r" *(?:pub )?(?:use|module|mod) ", it[0]):
            continue
        if indent and re.search(r"(?m)^(?: {0,%d})(\S.*)$" % (indent - 1), code[code.rfind("\n\n", 0, it.start()) + 1 : it.start()]):
            above = re.findall(r"(?m)^(?: {0,%d})(\S.*)$" % (indent - 1), code[code.rfind("\n\n", 0, it.start()) + 1 : it.start()])[-1]
            if re.match(r"(?:pub )?record ", above):
                continue
        found.setdefault(it[1], it.start(1))
    return found


class Fn(NamedTuple):
    """A function in Rattle: its module, the type and the trait of the block it stands in, and the places of name, signature and body."""

    crate: str
    file: str
    module: str
    owner: Optional[str]
    trait: Optional[str]
    name: str
    at: int
    body: int
    end: int
    cycle: Optional[str]

    def folders(self) -> Iterator[str]:
        """Names that the last part of a folder of its proof may have."""
        yield from (self.name, f"+{self.name}")
        if self.cycle:
            yield f"+{self.cycle}"


def crate_of(name: str) -> str:
    return name.split("/")[1] if name.startswith("crates/") else ""


def module_of(name: str) -> str:
    """The module of a source crates/C/src/a/b.rt, which is a::b."""
    inner = name.split("/src/", 1)[1].removesuffix(".rt")
    return "" if inner in ("lib", "main") else inner.replace("/", "::")


@lru_cache(maxsize=8192)
def blocks(text: str) -> list:
    """The blocks of impl and trait: where each begins and ends, its type, and its trait."""
    code, found = rattle_code(text), []
    for it in re.finditer(r"(?m)^[ \t]*(?:pub(?:\(crate\))? )?(?:unsafe )?(impl|trait)\b([^{;]*)\{", code):
        head = re.sub(r"\bwhere\b.*", "", it[2], flags=re.S)
        while re.search(r"<[^<>]*>", head):
            head = re.sub(r"<[^<>]*>", "", head)
        trait, is_impl_of, owner = head.partition(" for ")
        words = re.findall(r"\w+", (owner if is_impl_of else trait).split(":")[0])
        if it[1] == "impl":
            kinds = (words[-1] if words else "", re.findall(r"\w+", trait)[-1] if is_impl_of else None)
        else:
            kinds = (None, words[0])
        found.append((it.end() - 1, closing(code, it.end() - 1), *kinds))
    return found


@lru_cache(maxsize=8192)
def functions(name: str, text: str) -> list:
    """The functions of a source in Rattle."""
    code, found, ghost = rattle_code(text), [], ghost_parts(text)
    for it in re.finditer(r"\bfn (\w+)", code):
        at = it.start(1)
        if any(start <= at < end for start, end in ghost):
            continue
        owner = trait = None
        for start, end, its_owner, its_trait in blocks(text):
            if start < at < end:
                owner, trait = its_owner, its_trait
        body = body_of(code, it.end())
        above = code[: it.start()].rsplit("\n\n", 1)[-1][-400:]
        cycle = re.findall(r"#\[cycle\((\w+)\)\](?:(?!\bfn\b).)*$", above, flags=re.S)
        found.append(Fn(crate_of(name), name, module_of(name), owner, trait, it[1], at, body, closing(code, body) if code[body : body + 1] == "{" else body, cycle[-1] if cycle else None))
    return found


def body_of(code: str, at: int) -> int:
    """The place of the brace that opens a function's body, or of the semicolon in its place."""
    while at < len(code):
        clause = re.compile(r"\s*" + CLAUSE.pattern, CLAUSE.flags).match(code, at)
        if clause:
            at = closing(code, clause.end())
            continue
        ghost = re.compile(r"\s*ghost \w+\s*[:=]?\s*(?=\{)").match(code, at)
        if ghost:
            at = closing(code, ghost.end())
            continue
        if code[at] in "{;":
            return at
        at += 1
    return at
