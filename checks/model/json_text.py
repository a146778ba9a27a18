"""JSON by the grammar of RFC 8259, with exact numbers, and as far as key files may use it: values within at most 127 others, numbers in the range
of binary64, and no unpaired surrogates."""

import re
from fractions import Fraction

DEEPEST = 127
LARGEST_EXPONENT = 5000  # of those that are taken as they are: beyond, a number is far outside of any range that is asked for
BINARY64 = Fraction(2) ** 1024 - Fraction(2) ** 970  # numbers from here on are rounded to infinity
NUMBER = re.compile(r"-?(0|[1-9][0-9]*)(\.[0-9]+)?([eE][+-]?[0-9]+)?")
PARTS = re.compile(r"(-?)(0|[1-9][0-9]*)(?:\.([0-9]+))?(?:[eE]([+-]?[0-9]+))?")
FOUR_DIGITS = re.compile(r"[0-9a-fA-F]{4}")
ESCAPES = {'"': '"', "\\": "\\", "/": "/", "b": "\b", "f": "\f", "n": "\n", "r": "\r", "t": "\t"}
WORDS = {"true": True, "false": False, "null": None}
SPACE = " \t\n\r"


class NotJson(Exception):
    pass


class Number:
    """A JSON number as its exact value."""

    def __init__(self, text):
        sign, whole, fraction, exponent = PARTS.fullmatch(text).groups()
        digits, exponent = int(whole + (fraction or "")), int(exponent or "0")
        self.value = Fraction(0)
        if digits:
            power = exponent - len(fraction or "") if abs(exponent) <= LARGEST_EXPONENT else max(-LARGEST_EXPONENT, min(exponent, LARGEST_EXPONENT))
            self.value = (-1 if sign else 1) * digits * Fraction(10) ** power
        self.is_plain = re.fullmatch(r"-?[0-9]+", text) is not None

    @property
    def is_too_large(self):
        return abs(self.value) >= BINARY64

    def integer(self):
        """The integer that it is, or None. One with a fraction or an exponent is rounded to binary64 before (RFC 8259, section 6)."""
        value = self.value if self.is_plain else Fraction(float(self.value))
        return int(value) if value.denominator == 1 else None


class Reader:
    def __init__(self, text):
        self.text, self.at = text, 0

    def skip_space(self):
        while self.next() and self.next() in SPACE:
            self.at += 1

    def next(self):
        """The next character, or nothing at the end."""
        return self.text[self.at : self.at + 1]

    def take(self, text):
        if not self.text.startswith(text, self.at):
            raise NotJson
        self.at += len(text)

    def take_matching(self, form):
        found = form.match(self.text, self.at)
        if not found:
            raise NotJson
        self.at = found.end()
        return found.group()

    def document(self):
        self.skip_space()
        value = self.value(0)
        self.skip_space()
        if self.next():
            raise NotJson
        return value

    def value(self, depth):
        first = self.next()
        if first in ("{", "["):
            if depth == DEEPEST:
                raise NotJson
            return self.object(depth + 1) if first == "{" else self.array(depth + 1)
        if first == '"':
            return self.string()
        for word, value in WORDS.items():
            if first == word[0]:
                self.take(word)
                return value
        number = Number(self.take_matching(NUMBER))
        if number.is_too_large:
            raise NotJson
        return number

    def object(self, depth):
        """Of members of one name the last counts."""
        members = {}
        for _ in self.items("{", "}"):
            name = self.string()
            self.skip_space()
            self.take(":")
            self.skip_space()
            members[name] = self.value(depth)
        return members

    def array(self, depth):
        return [self.value(depth) for _ in self.items("[", "]")]

    def items(self, opening, closing):
        """Takes what is around the items, each of which is to be taken in its turn."""
        self.take(opening)
        self.skip_space()
        while self.next() != closing:
            yield
            self.skip_space()
            if self.next() == closing:
                break
            self.take(",")
            self.skip_space()
            if self.next() == closing:
                raise NotJson
        self.take(closing)

    def string(self):
        self.take('"')
        characters = []
        while (character := self.next()) != '"':
            if character < " ":  # the end, too
                raise NotJson
            self.at += 1
            characters.append(self.escaped() if character == "\\" else character)
        self.take('"')
        try:
            return "".join(characters).encode("utf-16", "surrogatepass").decode("utf-16")
        except UnicodeDecodeError:
            raise NotJson from None

    def escaped(self):
        letter = self.next()
        self.at += 1
        if letter == "u":
            return chr(int(self.take_matching(FOUR_DIGITS), 16))
        if letter not in ESCAPES:
            raise NotJson
        return ESCAPES[letter]


def json_object(data):
    """The members of the object that bytes are, or None."""
    try:
        value = Reader(data.decode("utf-8")).document()
    except (UnicodeDecodeError, NotJson):
        return None
    return value if isinstance(value, dict) else None
