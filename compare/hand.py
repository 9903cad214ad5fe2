"""Trees as a hand may write them: random free layouts, by the rules of docs/DEFINITIONS.md.

A tree is one of `canonical`, in which there may be a Kept: a number of a header that is no whole number of 128 bits, and so is kept as
its text where it is written without quotes. Keys are scalars.
"""
from collections import Counter

from canonical import Dict, LONGEST_KEY, is_flat, needs_quotes

# The characters that letters after a backslash stand for, and how many hexadecimal digits follow others.
LETTERS = {
    "0": "\0", "a": "\a", "b": "\b", "t": "\t", "\t": "\t", "n": "\n", "v": "\v", "f": "\f", "r": "\r", "e": "\x1b",
    " ": " ", '"': '"', "'": "'", "\\": "\\", "N": "\x85", "_": "\xa0", "L": "\u2028", "P": "\u2029",
}
DIGITS = {"x": 2, "u": 4, "U": 8}
NEVER_AS_IS = set('"\\\r\n\0')
REMARKS = ["", " c", "#", "---", "...", " a: 1", " \"[{'", "\t|", "\x01\x7f\x85\u2028\ufeff", " \u00e9\u4e2d\U0001f600", "%!&*", "- x  "]
# The ways between which a hand chooses, by name; a comparison in which one was never taken shows too little.
WAYS = [
    "feed", "return_feed", "blank", "comment", "no_filler", "filler", "next", "unended", "half", "as_is",
    *(f"short {letter}" for letter in LETTERS), *(f"code {letter}" for letter in DIGITS),
    "bare ~", "bare null", "bare truth", "bare number", "bare kept", "bare text", "quote", "square", "curly",
    "word", "empty", "last", "item", "piece", "beside", "below", "piece_of", "below_key", "level",
    "only", "pair", "longest key", "leaf", "list", "dict", "column",
]


class Kept(str):
    """A number that a header keeps as its text, where it is bare."""


class Hand:
    """Writes trees, and counts which ways it took."""

    def __init__(self, rng):
        self.rng = rng
        self.taken = Counter()
        self.breaks = ["feed"]

    def took(self, way):
        self.taken[way] += 1
        return way

    def chosen(self, *ways):
        return self.took(self.rng.choice(ways))

    def blanks(self):
        return " " * self.rng.choice([0, 0, 0, 0, 1, 2, 3, 9])

    def line_end(self):
        return "\n" if self.chosen(*self.breaks) == "feed" else "\r\n"

    def filler(self):
        """A line that says nothing, without its end."""
        if self.chosen("blank", "comment") == "blank":
            return self.blanks()
        return f"{self.blanks()}#{self.rng.choice(REMARKS)}"

    def gap(self):
        """A line's end, and lines that say nothing."""
        text = self.line_end()
        while self.chosen("no_filler", "no_filler", "filler") == "filler":
            text += self.filler() + self.line_end()
        return text

    def rest(self, ends):
        """What comes after the last piece of a line; whether the text may end there."""
        way = self.chosen("next", "unended", "half") if ends else self.took("next")
        if way == "unended":
            return ""
        return self.gap() + (self.filler() if way == "half" else "")

    def letter(self, character, is_plain):
        """A character between double quotes; whether in the first way that there is."""
        ways = [] if character in NEVER_AS_IS else ["as_is"] * 6
        ways += [f"short {letter}" for letter, meant in LETTERS.items() if meant == character]
        ways += [f"code {letter}" for letter, count in DIGITS.items() if ord(character) < 16**count]
        kind, _, letter = self.chosen(*(ways[:1] if is_plain else ways)).partition(" ")
        if kind == "as_is":
            return character
        if kind == "short":
            return f"\\{letter}"
        digits = f"{ord(character):0{DIGITS[letter]}x}"
        return f"\\{letter}{self.rng.choice([digits, digits.upper()])}"

    def quoted(self, text):
        is_plain = self.rng.random() < 0.5
        return f'"{"".join(self.letter(character, is_plain) for character in text)}"'

    def scalar(self, tree):
        if tree is None:
            return self.chosen("bare ~", "bare null").removeprefix("bare ")
        if isinstance(tree, bool):
            self.took("bare truth")
            return "true" if tree else "false"
        if isinstance(tree, int):
            self.took("bare number")
            return str(tree)
        if isinstance(tree, Kept):
            self.took("bare kept")
            return str(tree)
        ways = ["quote"] if needs_quotes(tree) else ["bare text", "bare text", "quote"]
        return tree if self.chosen(*ways) == "bare text" else self.quoted(tree)

    def key(self, tree):
        """A scalar of at most as many characters as a key may have, as they are written."""
        while True:
            written = self.scalar(tree)
            if len(written) <= LONGEST_KEY:
                if len(written) == LONGEST_KEY:
                    self.took("longest key")
                return written

    def leaf(self, tree, ends):
        """A scalar or an empty collection, and what comes after it."""
        if isinstance(tree, (list, Dict)):
            self.took("empty")
            self.took("square" if isinstance(tree, list) else "curly")
            return ("[]" if isinstance(tree, list) else "{}") + self.rest(ends)
        self.took("word")
        return self.scalar(tree) + self.rest(ends)

    def collection(self, column, tree, ends):
        if isinstance(tree, list):
            self.took("list")
            return "-" + self.items(column, tree, ends)
        self.took("dict")
        return self.entries(column, tree.pairs, ends)

    def further_in(self, column, tree, ends):
        """A collection on later lines, right of a column."""
        further = column + 1 + len(self.blanks())
        return self.gap() + " " * further + self.collection(further, tree, ends)

    def items(self, column, held, ends):
        """What comes after the first mark of a list at a column."""
        written = []
        for place, tree in enumerate(held, 1):
            is_last = place == len(held)
            self.took("last" if is_last else "item")
            written.append(self.item(column, tree, ends and is_last))
        return (" " * column + "-").join(written)

    def item(self, column, tree, ends):
        """What comes after a mark at a column."""
        blanks = " " + self.blanks()
        if is_flat(tree):
            self.took("piece")
            return blanks + self.leaf(tree, ends)
        if self.chosen("beside", "below") == "beside":
            return blanks + self.collection(column + 1 + len(blanks), tree, ends)
        return self.further_in(column, tree, ends)

    def value(self, column, tree, ends):
        """What comes after the colon of a key at a column."""
        if is_flat(tree):
            self.took("piece_of")
            return f" {self.blanks()}{self.leaf(tree, ends)}"
        ways = ["below_key", "level"] if isinstance(tree, list) else ["below_key"]
        if self.chosen(*ways) == "level":
            return self.gap() + " " * column + "-" + self.items(column, tree, ends)
        return self.further_in(column, tree, ends)

    def entries(self, column, pairs, ends):
        written = []
        for place, (key, value) in enumerate(pairs, 1):
            is_last = place == len(pairs)
            self.took("only" if is_last else "pair")
            written.append(f"{self.key(key)}:{self.value(column, value, ends and is_last)}")
        return (" " * column).join(written)

    def document(self, tree, may_end=True):
        """A text that spells a tree; whether its last line may lack its end."""
        self.breaks = self.rng.choice([["feed"], ["return_feed"], ["feed", "return_feed"]])
        blanks = self.blanks()
        head = "---" + self.gap() + blanks
        if blanks:
            self.took("column")
        if is_flat(tree):
            self.took("leaf")
            return head + self.leaf(tree, may_end)
        return head + self.collection(len(blanks), tree, may_end)

    def ways_not_taken(self):
        return [way for way in WAYS if not self.taken[way]]
