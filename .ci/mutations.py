"""Texts with random changes of bytes, words and lines, for scripts that hold several readers of a text to one another."""
import random
import re

DIGITS = b"0123456789abcdef"
NOTABLE = [
    b"none", b"=", b"=00", b"0", b"1", b"00", b"256", b"257", b"1000", b"1001", b"65535", b"65536", b"18446744073709551615",
    b"18446744073709551616", b"ok", b"no", b"root", b"proof", b"name", b"claim", b"leaf", b"side", b"chunk", b"entry", b"00" * 31, b"00" * 32,
    b"00" * 33, b"00" * 129, b"",
]
HOW_MANY = [0, 1, 1, 1, 1, 2, 3]


class Mutations:
    """Changes drawn from a seed. Lines and words are also taken from other texts of the same sort."""

    def __init__(self, seed, texts):
        self.drawn = random.Random(seed)
        self.lines = [line for text in texts for line in text.split(b"\n")]
        self.kinds = [self.digit] * 9 + [self.number, self.word, self.byte, self.byte_more, self.byte_less, self.line_less, self.line_twice,
                                         self.lines_turned, self.line_of_another, self.other_end]

    def changed(self, text):
        """The text after none to three changes."""
        for _ in range(self.drawn.choice(HOW_MANY)):
            text = self.drawn.choice(self.kinds)(text)
        return text

    def replaced(self, text, pattern, change):
        """The text with one match of a pattern changed."""
        found = list(re.finditer(pattern, text))
        if not found:
            return text
        start, end = self.drawn.choice(found).span()
        return text[:start] + change(text[start:end]) + text[end:]

    def digit(self, text):
        """Another digit in a hexadecimal word."""
        return self.replaced(text, rb"(?<=[0-9a-f=])[0-9a-f](?=[0-9a-f])", lambda _: bytes([self.drawn.choice(DIGITS)]))

    def number(self, text):
        """A number in decimal digits, one more or less, or so many more."""
        return self.replaced(text, rb"\b[0-9]{1,5}\b", lambda word: b"%d" % max(0, int(word) + self.drawn.choice([-1, 1, -1, 1, 256])))

    def word(self, text):
        """Another word, or none."""
        others = NOTABLE + self.drawn.choice(self.lines).split(b" ")
        return self.replaced(text, rb"[^ \n]+", lambda _: self.drawn.choice(others))

    def byte(self, text):
        return self.replaced(text, rb"(?s).", lambda _: bytes([self.drawn.randrange(256)]))

    def byte_more(self, text):
        place = self.drawn.randrange(len(text) + 1)
        return text[:place] + self.drawn.choice([b" ", b"\n", b"\r", b"\0", b"0", b"F", b"\xff"]) + text[place:]

    def byte_less(self, text):
        return self.replaced(text, rb"(?s).", lambda _: b"")

    def over_lines(self, text, change):
        """The text after a change of its list of lines."""
        lines = text.split(b"\n")
        change(lines, self.drawn.randrange(len(lines)))
        return b"\n".join(lines)

    def line_less(self, text):
        return self.over_lines(text, lambda lines, place: lines.pop(place))

    def line_twice(self, text):
        return self.over_lines(text, lambda lines, place: lines.insert(place, lines[place]))

    def lines_turned(self, text):
        def turn(lines, place):
            lines[place : place + 2] = lines[place : place + 2][::-1]

        return self.over_lines(text, turn)

    def line_of_another(self, text):
        """A line of another text, in place of one or before it."""
        def put(lines, place):
            lines[place : place + self.drawn.randrange(2)] = [self.drawn.choice(self.lines)]

        return self.over_lines(text, put)

    def other_end(self, text):
        """The text cut somewhere, or with a line feed more."""
        return self.drawn.choice([text[: self.drawn.randrange(len(text) + 1)], text + b"\n"])

    def counted(self, reply):
        """A reply to `prove` whose first line counts the lines after it, whatever they are."""
        count = reply.rstrip(b"\n").count(b"\n") - 3
        return re.sub(rb"^((?:[0-9]+ ok )?proof )[0-9]+", b"\\g<1>%d" % count, reply) if count >= 0 else reply
