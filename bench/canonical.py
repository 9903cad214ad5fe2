"""Trees as `snap` prints them, by the rules of docs/DEFINITIONS.md.

A tree is None, a truth value, a whole number from -2^127 to 2^128 - 1, a text, a list of trees, or a Dict.
"""
import re

LONGEST_KEY = 1024
RESERVED = set(
    "yes Yes YES no No NO True TRUE true False FALSE false on On ON off Off OFF null Null NULL ~".split()
)
SPECIAL = set(":{}[],#\"'\\`\t\n\r") | set(map(chr, [*range(0x00, 0x07), *range(0x0E, 0x1B), *range(0x1C, 0x20)]))
LEADING = set("&*?|-<>=!%@. ")
# Unicode's white space; Python's own `isspace` has four characters more.
WHITE = set("\t\n\x0b\x0c\r \x85\xa0\u1680\u2028\u2029\u202f\u205f\u3000") | set(map(chr, range(0x2000, 0x200B)))
FLOAT = re.compile(r"[+-]?((\d+\.?\d*|\.\d+)(e[+-]?\d+)?|inf|infinity|nan)", re.ASCII | re.IGNORECASE)
OCTAL = re.compile(r"0o([+-]?[0-7]+)", re.ASCII)
PLUS = re.compile(r"\+([+-]?\d+)", re.ASCII)
PLUS_INFINITY = {"+.inf", "+.Inf", "+.INF"}
ESCAPES = {'"': '\\"', "\\": "\\\\", "\b": "\\b", "\t": "\\t", "\n": "\\n", "\f": "\\f", "\r": "\\r"}


class Dict:
    """A list of pairs of trees; keys may repeat."""

    def __init__(self, pairs):
        self.pairs = list(pairs)


def is_short(digits, base):
    """Whether a number has 64 bits."""
    return -(2**63) <= int(digits, base) < 2**63


def is_number(text):
    """Whether a reader takes the text for a number, where nothing else quotes it."""
    if FLOAT.fullmatch(text) or text in PLUS_INFINITY:
        return True
    for pattern, base in ((OCTAL, 8), (PLUS, 10)):
        match = pattern.fullmatch(text)
        if match and is_short(match[1], base):
            return True
    return False


def needs_quotes(text):
    """Whether a text is written in double quotes."""
    if text == "" or text[0] in LEADING or text[-1] in WHITE or text.startswith("0x"):
        return True
    return any(c in SPECIAL for c in text) or text in RESERVED or is_number(text)


def escaped(character):
    """A character as it is written between double quotes."""
    if character < " " or character == "\x7f":
        return ESCAPES.get(character, f"\\u{ord(character):04x}")
    return ESCAPES.get(character, character)


def is_flat(tree):
    """Whether a tree is written on one line: a scalar or an empty collection."""
    if isinstance(tree, Dict):
        return not tree.pairs
    return not isinstance(tree, list) or not tree


def spelled(tree):
    """The one line of a flat tree."""
    if tree is None:
        return "~"
    if isinstance(tree, bool):
        return "true" if tree else "false"
    if isinstance(tree, int):
        return str(tree)
    if isinstance(tree, str):
        return f'"{"".join(map(escaped, tree))}"' if needs_quotes(tree) else tree
    return "{}" if isinstance(tree, Dict) else "[]"


# Where a tree stands, if texts of several lines are written as literal blocks: before more of the text, at its end, or there where
# white space at the end is lost. None: no blocks.
INSIDE, END, LAST = "inside", "end", "last"


def is_block(tree, place):
    """Whether an item or a value is written as a literal block."""
    if place is None or not isinstance(tree, str) or "\n" not in tree:
        return False
    if tree[0] in " \t\n\r" or "\r" in tree or "\0" in tree:
        return False
    core = tree.rstrip("\n")
    return place != LAST or len(tree) - len(core) <= 1 and core[-1] not in WHITE


def block(text, place):
    """The sign of a block, and the lines below it."""
    core = text.rstrip("\n")
    kept = len(text) - len(core)
    empty = kept - 1 if kept > 1 else int(place == INSIDE)
    return ("|-", "|", "|+")[min(kept, 2)], ["  " + line for line in core.split("\n")] + [""] * empty


def indented(lines):
    return ["  " + line if line else line for line in lines]


def behind(mark, lines):
    """Lines after a mark."""
    return [f"{mark} {lines[0]}", *indented(lines[1:])]


def marked(mark, tree, place):
    """The lines of an item, or of a value after a mark of its own."""
    if is_block(tree, place):
        sign, below = block(tree, place)
        return [f"{mark} {sign}", *below]
    return behind(mark, tree_lines(tree, place))


def entry_lines(key, value, place):
    """The lines of a pair."""
    written = spelled(key) if is_flat(key) else ""
    if not is_flat(key) or isinstance(key, (list, Dict)) or len(written) > LONGEST_KEY:
        return behind("?", tree_lines(key, place and INSIDE)) + marked(":", value, place)
    if is_block(value, place):
        sign, below = block(value, place)
        return [f"{written}: {sign}", *below]
    if is_flat(value):
        return [f"{written}: {spelled(value)}"]
    return [f"{written}:", *indented(tree_lines(value, place))]


def tree_lines(tree, place=None):
    """The lines of a tree."""
    if is_flat(tree):
        return [spelled(tree)]
    if isinstance(tree, list):
        parts, lines_of = tree, lambda item, at: marked("-", item, at)
    else:
        parts, lines_of = tree.pairs, lambda pair, at: entry_lines(*pair, at)
    *others, last = parts
    return [line for part in others for line in lines_of(part, place and INSIDE)] + lines_of(last, place)


def document(tree, place=None):
    """`---` and the lines of a tree, each ended by LF."""
    return "".join(line + "\n" for line in ["---", *tree_lines(tree, place)])


def request(file, line, name, expr, value, module="m"):
    """The tree of a request."""
    keys = ["module", "file", "line", "name", "expr", "value"]
    return Dict(zip(keys, [module, file, line, name, expr, value]))
