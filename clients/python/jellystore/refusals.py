"""Why a reply shows nothing, and why a chunk isn't taken."""

REASONS = {
    1: "there are more than 256 siblings",
    2: "the leaf isn't that of the value, or it is the name's own and absence is claimed",
    3: "the leaf that shows absence isn't on the name's way",
    4: "the way up doesn't come to the root",
    5: "the block is on another name",
    6: "the reply isn't one proof block of at most 256 siblings, with nothing after it",
}

CHUNK_REASONS = {
    1: "the chunk has no entry",
    2: "the keys don't ascend strictly",
    3: "the depth is above 256, or the number of siblings doesn't fit it",
    4: "the last entry doesn't stand alone at its depth",
    5: "the entries don't come to the root",
}


class Refused(Exception):
    """A reply shows nothing: `number` says why, by REASONS. 1 to 4 are the checks of docs/FORMATS.md, "Proof blocks"."""

    def __init__(self, number: int) -> None:
        super().__init__(f"refused {number}: {REASONS[number]}")
        self.number = number


class ChunkRefused(Exception):
    """A chunk isn't taken: `number` says why, by CHUNK_REASONS, the checks of docs/FORMATS.md, "Chunk blocks". `line` is the number of
    its first line, from 1, in the text that was given."""

    def __init__(self, number: int, line: int) -> None:
        super().__init__(f"the chunk of line {line} is refused, {number}: {CHUNK_REASONS[number]}")
        self.number, self.line = number, line


class LineRefused(Exception):
    """A line isn't one of a chunk block at its place, or is missing: `line` is its number, from 1, in the text that was given."""

    def __init__(self, line: int) -> None:
        super().__init__(f"line {line} isn't that of a chunk block")
        self.line = line
